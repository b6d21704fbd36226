#!/usr/bin/env python3
"""Moves laws of a crate from specs/ to proofs/, statements and proofs unchanged: those that rest on the laws named, which an edit of a definition
makes false. Usage, at the top: python3 tools/port/move_laws.py CRATE LAW... It prints the laws that it moved, with their statements."""
import glob
import os
import re
import sys

TOKEN = r"[A-Za-z_ℕ₀-₉Α-ω][A-Za-z0-9_'\-₀-₉Α-ωμℕ²³]*"
WORD = re.compile(r"(?<![\w'-])" + TOKEN)
MARKS = r"((?:pattern |unfoldable |abbrev |pub )*)"


class Block:
    def __init__(self, lines):
        self.lines = lines
        code = [l for l in lines if not l.startswith("--") and l.strip()]
        first = code[0] if code else ""
        self.definition = bool(re.match(MARKS + r"(data|record) ", first) or re.match(r"[^:]*\b(unfoldable|abbrev)\b", first) or first.startswith("unfoldable"))
        is_record = bool(re.match(MARKS + r"record ", first))
        self.names = set()
        for l in code:
            m = re.match(r"(\s*)" + MARKS + r"(?:data |record )?(" + TOKEN + r")((?: ?\{[^}]*\}| \((?:[^()]|\([^()]*\))*\))*) :(?: |$)", l)
            if m and (not m.group(1) or not is_record):
                self.names.add(m.group(3))
        self.words = set(WORD.findall("\n".join(code)))

    def text(self):
        return "\n".join(self.lines)


def read(path):
    lines = open(path, encoding="utf-8").read().rstrip("\n").split("\n")
    head, uses, blocks, now = [], [], [], []
    i = 0
    while i < len(lines) and lines[i].startswith("--"):
        head.append(lines[i])
        i += 1
    while i < len(lines) and (lines[i].startswith(("use ", "pub use ")) or not lines[i].strip()):
        if lines[i].strip():
            uses.append(lines[i])
        i += 1
    own = None
    for line in lines[i:]:
        start = line and not line[0].isspace() and not line.startswith("unfolding")
        if start and not line.startswith("--"):
            m = re.match(MARKS + r"(?:data |record |module )?(" + TOKEN + r")", line)
            name = m.group(2) if m else line
            if name != own or line.startswith("module"):
                comments = []
                while now and (now[-1].startswith("--") or not now[-1].strip()):
                    comments.insert(0, now.pop())
                if now:
                    blocks.append(Block(now))
                now = [c for c in comments if c.strip()]
                own = name
        now.append(line)
    if now:
        blocks.append(Block(now))
    for b in blocks:
        while b.lines and not b.lines[-1].strip():
            b.lines.pop()
    return head, uses, blocks


def imports(uses, crate):
    found = {}
    for u in uses:
        m = re.match(r"(?:pub )?use Rattle\." + crate + r"\.specs\.([\w.]+)\.\{(.*)\}$", u)
        if m:
            for n in m.group(2).split(","):
                found[n.strip().split(" as ")[-1]] = m.group(1)
    return found


def main():
    crate, roots = sys.argv[1], set(sys.argv[2:])
    base = f"crates/{crate}/specs/"
    files = {p[len(base):-5].replace("/", "."): read(p) for p in glob.glob(base + "**/*.antt", recursive=True) if not p.endswith("Lib.antt")}
    bad = {}  # module -> names that fail or rest on what fails
    moved = {}
    for module, (head, uses, blocks) in files.items():
        for b in blocks:
            if b.names & roots:
                bad.setdefault(module, set()).update(b.names & roots)
    change = True
    while change:
        change = False
        for module, (head, uses, blocks) in files.items():
            taken = imports(uses, crate)
            known = {n for n, m in taken.items() if n in bad.get(m, ())} | bad.get(module, set())
            for i, b in enumerate(blocks):
                if b.definition or i in moved.get(module, ()):
                    continue
                hit = (b.words & known) - (b.names & roots if len(b.names) == 1 else set())
                own = b.names & roots
                inner = own and any(re.search(r"(?<![\w'-])" + re.escape(r) + r"(?![\w'-])", l) for r in own for l in b.lines if not re.match(r"\s*(pub )?" + re.escape(r) + r"\b", l))
                if (hit - own) or inner:
                    moved.setdefault(module, set()).add(i)
                    bad.setdefault(module, set()).update(b.names)
                    change = True
    for module, which in sorted(moved.items()):
        head, uses, blocks = files[module]
        stay = [b for i, b in enumerate(blocks) if i not in which]
        go = [b for i, b in enumerate(blocks) if i in which]
        names = set().union(*(b.names for b in go))
        rest = set().union(*(b.names for b in stay)) if stay else set()
        used = sorted((set().union(*(b.words for b in go)) & rest))
        constructors = sorted(used)
        path = base + module.replace(".", "/") + ".antt"
        to = path.replace("/specs/", "/proofs/")
        os.makedirs(os.path.dirname(to), exist_ok=True)
        for b in stay:
            # what a law needs there is named from another file now
            b.lines = [re.sub(r"^(\s*)((?:pattern |unfoldable |abbrev )*)((?:data |record )?)(" + TOKEN + r")(?=(?: ?\{[^}]*\}| \((?:[^()]|\([^()]*\))*\))* :(?: |$))", lambda m: m.group(1) + m.group(2) + "pub " + m.group(3) + m.group(4) if m.group(4) in used and (not m.group(1) or b.lines[0].startswith("module") or any(l.startswith("module") for l in b.lines)) else m.group(), l) for l in b.lines]
        back = [f"use Rattle.{crate}.specs.{module}.{{{', '.join(constructors)}}}"] if constructors else []
        open(to, "w", encoding="utf-8").write("\n".join(head + uses + back + [""] + ["\n".join(b.lines) + "\n" for b in go]))
        if stay:
            open(path, "w", encoding="utf-8").write("\n".join(head + uses + [""] + ["\n".join(b.lines) + "\n" for b in stay]))
        else:
            os.remove(path)
        print("##", module, "all of it" if not stay else "", "needs of specs:", constructors)
        for b in go:
            print("\n".join(l for l in b.lines if not l.startswith("--"))[:0], end="")
            print("  ", *sorted(b.names))
    for module in moved:
        # each folder of proofs/ lists its files, as each of specs/ does
        at = module.split(".")
        for i in range(len(at)):
            lists = f"crates/{crate}/proofs/" + ("Lib.antt" if i == 0 else "/".join(at[:i]) + ".antt")
            had = open(lists, encoding="utf-8").read() if os.path.exists(lists) else ""
            if f"pub mod {at[i]}\n" not in had:
                open(lists, "w", encoding="utf-8").write(had + f"pub mod {at[i]}\n")
    # whoever names what moved
    gone = {m: set().union(*(files[m][2][i].names for i in which)) for m, which in moved.items()}
    for path in glob.glob("crates/*/*/**/*", recursive=True):
        if not path.endswith((".antt", ".rt")) or "/out/" in path:
            continue
        text = open(path, encoding="utf-8").read()

        def split(m):
            start, module, names, end = m.group(1), m.group(2), [n.strip() for n in m.group(3).split(",")], m.group(4)
            if module not in gone:
                return m.group()
            go = [n for n in names if n.split(" as ")[0] in gone[module]]
            stay = [n for n in names if n.split(" as ")[0] not in gone[module]]
            out = [f"{start}Rattle.{crate}.specs.{module}.{{{', '.join(stay)}}}{end}"] if stay else []
            out += [f"{start}Rattle.{crate}.proofs.{module}.{{{', '.join(go)}}}{end}"] if go and not path.startswith(base) else []
            return "\n".join(out)

        new = re.sub(r"^((?:pub |ghost )*use )Rattle\." + crate + r"\.specs\.([\w.]+)\.\{([^}]*)\}(;?)$", split, text, flags=re.M)
        if new != text:
            open(path, "w", encoding="utf-8").write(new)


if __name__ == "__main__":
    main()

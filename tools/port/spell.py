#!/usr/bin/env python3
"""Brings the repository's own names to today's spelling, once, after the kit's port.py: definitions, fields and constructors in snake case. A dash
still joins the words of a law's name. Laws that port.py turned and that would now fall together with a definition get their dash back. Usage, at the
top: python3 tools/port/spell.py [--list]. It reads crates/*/specs and crates/*/proofs for what is declared, and rewrites .antt, .rt and .edit files."""
import collections
import glob
import re
import sys

TOKEN = r"[A-Za-z_ℕ₀-₉Α-ω][A-Za-z0-9_'\-₀-₉Α-ωℕ²³]*"
MARKS = r"((?:pattern |unfoldable |abbrev |pub |axiom )*)"
DECLARED = re.compile(r"^(\s*)" + MARKS + r"(data |record )?(" + TOKEN + r")((?: ?\{[^}]*\}| \([^)]*\))*) : ")
BLOCK = re.compile(r"^(\s*)(?:pub )?(data|record|module)\b")


def declared():
    """Each name with what it is: a law, a definition, a field or a constructor, a type."""
    kinds = collections.defaultdict(set)
    for path in sorted(glob.glob("crates/*/specs/**/*.antt", recursive=True) + glob.glob("crates/*/proofs/*.antt")):
        blocks = []
        for line in open(path, encoding="utf-8"):
            if not line.strip() or line.lstrip().startswith("--"):
                continue
            indent = len(line) - len(line.lstrip())
            while blocks and indent <= blocks[-1][0]:
                blocks.pop()
            block = BLOCK.match(line)
            name = DECLARED.match(line)
            if name:
                inside = blocks[-1][1] if blocks else "module"
                if name.group(3):
                    kind = "type"
                elif inside in ("data", "record"):
                    kind = "member"
                else:
                    kind = "definition" if re.search("unfoldable|abbrev", name.group(2)) else "law"
                kinds[name.group(4)].add((kind, path))
            if block:
                blocks.append((indent, block.group(2)))
    return kinds


def snake(name, dash):
    out = ""
    for i, c in enumerate(name):
        if c.isupper() and i and name[i - 1] not in "-_":
            out += "_"
        out += c.lower() if c.isupper() else dash if c == "-" else c
    return out


def renames(kinds):
    new = {}
    for name, found in kinds.items():
        if name[0].isupper() or name[0] == "ℕ":
            continue
        spelt = snake(name, "-" if all(kind == "law" for kind, _ in found) else "_")
        if spelt != name:
            new[name] = spelt
    return new


def dashes_back(kinds, new):
    """Laws that port.py turned, where a definition has that name now: the law's words are joined by dashes again."""
    laws = {name: {path for kind, path in kinds.get(name, ()) if kind == "law"} for name in new.values()}
    return {name: paths for name, paths in laws.items() if paths}


IMPORT = re.compile(r"Rattle\.(\w+)\.(specs|proofs)\.([\w.]+)\.\{([^}]*)\}")
WORDS = re.compile(TOKEN)


def cites(text, name, paths):
    """Whether a file imports this name from one of the files that declare it."""
    for crate, folder, module, names in IMPORT.findall(text):
        if name in WORDS.findall(names) and f"crates/{crate}/{folder}/{module.replace('.', '/')}.antt" in paths:
            return True
    return False


def respell(path, text, new, back):
    here = {name: name.replace("_", "-") for name, paths in back.items() if path in paths or cites(text, name, paths)}

    def word(found):
        name = found.group()
        return here.get(name, new.get(name, name))

    return WORDS.sub(word, text)


def main():
    kinds = declared()
    new = renames(kinds)
    back = dashes_back(kinds, new)
    if "--list" in sys.argv:
        print(len(kinds), "declared,", len(new), "respelt,", len(back), "with dashes again:", *sorted(back))
        for name, spelt in sorted(new.items()):
            print(name, spelt)
        return
    count = 0
    for path in sorted(glob.glob("crates/*/*/**/*", recursive=True)):
        if not path.endswith((".antt", ".rt", ".edit")) or "/out/" in path:
            continue
        text = open(path, encoding="utf-8").read()
        spelt = respell(path, text, new, back)
        if spelt != text:
            count += 1
            open(path, "w", encoding="utf-8").write(spelt)
    print(len(new), "names respelt in", count, "files")


if __name__ == "__main__":
    main()

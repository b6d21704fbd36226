#!/usr/bin/env python3
"""Turns the proofs of a crate that walk the code (proofs/F/Proof.antt) into answers and invariants (Answers.antt, Invariants.antt), by the table of old
and new names that `rt check --generated FOLDER --old-names` writes. What was `search needs` is left to the check. Usage, at the top:
python3 tools/port/answers.py CRATE NAMES.json [FUNCTION..]. It says what it could not turn."""
import json
import os
import re
import sys

TOKEN = r"[A-Za-z_ℕ₀-₉Α-ω][A-Za-z0-9_'\-₀-₉Α-ωκμℕ²³]*"


def plain(name):
    return name.replace("-", "_")


def named_clauses():
    """The names of the clauses that each function ensures, where it has several."""
    found = {}
    for folder, _, names in os.walk("crates"):
        for name in names:
            if name.endswith(".rt") and "/out" not in folder:
                text = open(os.path.join(folder, name), encoding="utf-8").read()
                fn = None
                for line in text.split("\n"):
                    head = re.match(r"\s*(?:pub )?(?:extern \"C\" )?fn (\w+)", line)
                    fn = head.group(1) if head else fn
                    clause = re.match(r"\s+ensures (\w+) \{", line)
                    if clause:
                        found.setdefault((folder.split(os.sep)[1], fn), []).append(clause.group(1))
    return found


def lent_slices():
    """The slices that each function is lent to write, by name."""
    found = {}
    for folder, _, names in os.walk("crates"):
        for name in names:
            if name.endswith(".rt") and "/out" not in folder:
                text = open(os.path.join(folder, name), encoding="utf-8").read()
                for fn, params in re.findall(r"\bfn (\w+)(?:<[^>]*>)?\(([^{]*?)\)\s*(?:->|requires|ensures|\{)", text):
                    found[folder.split(os.sep)[1], fn] = re.findall(r"(\w+): &mut ", params)
    return found


LENT = lent_slices()
CLAUSES = named_clauses()


def same_step(old, head):
    """Whether an old proof calls a step so; port.py turned some of these as if they were words of its own."""
    return plain(old).lower() in (head.lower(), head.lower().removesuffix("_lem"))


class Table:
    def __init__(self, entry, cycle=False):
        self.cycle = cycle
        self.parent = {}
        self.step = {}
        self.raw = entry
        self.kids = {}
        for place in entry["places"]:
            name, parent, fields = place[0], place[1], place[2]
            self.parent[name] = parent
            self.step[name] = (fields[0], fields[1])
        self.callee = {place[0]: place[3] for place in entry["places"]}
        self.loops = {names[1]: [n for n, ch in zip(params, changed) if ch] for (names, params), changed in zip(entry["loops"], entry["changed"])}
        self.args = dict(pair for pair in entry["args"])
        self.arm = dict(zip([place[0] for place in entry["places"]], entry["arms"]))
        self.needs = []
        asked = entry["asked_at"]
        for i, (old, new) in enumerate(entry["needs"]):
            self.needs.append((old, new, asked[i][0] if i < len(asked) else None))
        self.said = []
        self.bodies = {}

    def need(self, old):
        key = re.sub(r"^(overflow|nonzero)_", "", plain(old))
        for o, n, place in self.needs:
            if re.sub(r"^(overflow|nonzero)_", "", plain(o)) == key:
                return n, place
        key2 = re.sub(r"^slice_bounds_", "part_", key)
        for o, n, place in self.needs:
            if plain(o) in (key2, key.replace("slice_bounds", "bounds")):
                return n, place
        return None, None

    def in_arm(self, place, head, rest):
        """A part of a step at an arm of a match: today's arm has it under a name of its own."""
        if not self.arm.get(place):
            return None
        name, _, fields = self.arm[place]
        for new, step, old in sorted(fields, key=lambda field: -len(field[2])):
            if plain(step) == head and rest[:len(old)] == old and old:
                return [name, new] + rest[len(old):]
        return None

    def path(self, place, parts):
        """What today's record calls the step that the old path reached, and what is left of the path."""
        cur = place
        while parts and parts[0] == "before":
            parts = parts[1:]
            if cur is not None:
                cur = self.parent.get(cur)
        if not parts:
            return None
        head = plain(parts[0])
        if self.cycle and head == "requires":
            # among functions that call one another the clause came second, behind the measure
            return ["requires"] + parts[2:] if parts[1:2] == ["1"] else None
        if head in ("args", "ranges") and parts[1:]:
            new = self.args.get(f".{head} .{parts[1]}")
            if new:
                parts = [head, new.split(" .")[1]] + parts[2:]
        if head in ("args", "requires", "ranges", "type_inv", "lifetimes", "utf8", "well_formed"):
            return [head] + parts[1:]
        while cur:
            old, new = self.step.get(cur, ("", ""))
            if same_step(old, head):
                return self.in_arm(cur, plain(old), parts[1:]) or self.kept(cur, [new] + parts[1:])
            cur = self.parent.get(cur)
        for name, (old, new) in self.step.items():
            if same_step(old, head):
                return self.in_arm(name, plain(old), parts[1:]) or self.kept(name, [new] + parts[1:])
        return None

    def kept(self, place, path):
        """That a call or a loop keeps a slice's length goes by the slice's name now, and not by its number."""
        callee = self.callee.get(place) or ""
        clauses = CLAUSES.get((callee.split("::")[0], callee.split("::")[-1]))
        if clauses and path[1:2] == ["ensures"] and path[2:3] and path[2].isdigit():
            return path[:2] + [clauses[int(path[2])]] + path[3:]
        if path[1:2] == ["new"] and path[2:3] and path[2].isdigit():
            names = self.raw["params"][callee]
            ones = 0
            while path[2 + ones:3 + ones] == ["1"]:
                ones += 1
            return path[:2] + [names[ones]] + path[3 + ones:]
        if path[1:2] != ["auto"] or not path[2:3] or not path[2].isdigit():
            return path
        callee = self.callee.get(place)
        names = LENT.get((callee.split("::")[0], callee.split("::")[-1])) if callee else None
        if not names:
            names = [n for l, p in self.loops.items() if l == path[0] for n in p]
        ones = 0
        while path[2 + ones:3 + ones] == ["1"] and path[3 + ones:4 + ones]:
            ones += 1
        whole = self.raw["params"].get(callee, names) if ones else names
        return path[:2] + [whole[ones]] + path[3 + ones:] if ones < len(whole) else path


def blocks(text):
    """The top-level declarations: (names, lines)."""
    out = []
    for line in text.split("\n"):
        if line and not line[0].isspace() and not line.startswith("--"):
            m = re.match(r"((?:pub |abbrev |unfoldable )*)(\+?" + TOKEN + r"|use)", line)
            word = m.group(2) if m else None
            if line.startswith(("use ", "pub use ")):
                out.append(["use", [line]])
            elif line.startswith("unfolding"):
                out[-1][1].append(line)
            elif out and (word is None or word == out[-1][0]):
                out[-1][1].append(line)
            else:
                out.append([word, [line]])
        elif line.startswith("--"):
            out.append(["--", [line]])
        elif out and line.strip():
            out[-1][1].append(line)
    return out


def turn_body(body, table, place, said):
    def path(m):
        parts = m.group(1).split(".")[1:]
        found = table.path(place, parts)
        if not found:
            said.append("path " + m.group(0))
            return m.group(0)
        return "c." + ".".join(found)

    if table.cycle:
        body = re.sub(r"omega \(arith, c(?:\.before)*\.requires\.0\)", "omega arith", body)
        body = re.sub(r", c(?:\.before)*\.requires\.0(?=[,)])", "", body)
    body = re.sub(r"(?<![\w'.-])c((?:\.[A-Za-z0-9_'\-]+)+)", path, body)
    body = re.sub(r"\bneeds\b", "rules", body)
    # a test of `!x` says `x ≡ false` now, where it said that `not x` is true
    body = re.sub(r"(?<![\w'.-])(c\.if-not-[^\s(){},.]+\.(?:true|false))(?![\w'.-])", r"(ap not \1)", body)
    body = re.sub(r"\(not-(?:true|false) _ \(ap not (\S+)\)\)", r"\1", body)
    return body


def balanced(text, start):
    """The end of the bracket that opens at start."""
    depth = 0
    for i in range(start, len(text)):
        depth += {"(": 1, ")": -1}.get(text[i], 0)
        if depth == 0:
            return i
    return -1


def local(name, what, rest, table, locals_, said):
    """A law about one step of the code: its answers have it as a typed `let` now."""
    start = what.index("(c : ")
    end = balanced(what, start)
    place_name = re.match(r"\(c : " + TOKEN + r"\.([^\s()]+)", what[start:]).group(1)
    m = re.match(r"\s*→\s(.*)$", what[end + 1:], re.S)
    unf = re.match(r"(unfolding [^\n]*)\n", rest)
    if unf:
        rest = rest[unf.end():]
    eq = re.match(re.escape(name) + r" ((?:t )?c) =\s(.*)$", rest, re.S)
    if not m or not eq:
        said.append("law of a step " + name)
        return
    place = next((p for p in table.parent if plain(p) == plain(place_name)), None)
    if place is None:
        said.append(f"place {place_name} of {name}")
        return
    locals_[name] = (m.group(1).strip(), eq.group(2), place, unf.group(1)[10:] if unf else None, table)


def with_locals(body, table, place, locals_, said):
    used = []

    def uses_of(name):
        return r"(?<![\w'.-])" + re.escape(name) + r" (?:t )?(?:c(?:\.before)*(?![\w'.-])|\(c(?:\.before)*\))"

    def find(text):
        for name in locals_:
            if re.search(uses_of(name), text) and name not in used:
                find(locals_[name][1])
                find(locals_[name][0])
                if name not in used:
                    used.append(name)

    def drop(text):
        for name in locals_:
            text = re.sub(uses_of(name), name, text)
            text = text.replace(f"({name})", name)
        return text

    for name, (its, at) in table.bodies.items():
        # an answer that another answer called stands in its place
        body = re.sub(uses_of(name), lambda m: "(" + turn_body(its, table, at, said) + ")", body)
    find(body)
    out = ""
    for name in used:
        what, its, at, unf, its_table = locals_[name]
        its = turn_body(drop(its), its_table, at, said).strip()
        if "\n" in its or its.startswith("let "):
            its = f"({its})"
        if unf:
            its = f"unfold ({', '.join(unf.split())}) in {its}"
        out += f"let {name} : {turn_body(drop(what), its_table, at, said)} = {its} in\n    "
    return out + turn_body(drop(body), table, place, said)


def by_clause(body, clauses):
    """A pair of proofs as the record of the clauses that it proves."""
    lead = re.match(r"(?:let .*? in\s)*(?=\S)", body, re.S)
    depth, cut = 0, 0
    for m in re.finditer(r"[()]|(?<=\s)in\s", body):
        if m.group() in "()":
            depth += 1 if m.group() == "(" else -1
        elif depth == 0:
            cut = m.end()
    lead, last = body[:cut], body[cut:].strip()
    if last.startswith("(") and balanced(last, 0) == len(last) - 1:
        parts, depth, start = [], 0, 1
        for i, ch in enumerate(last):
            depth += {"(": 1, ")": -1}.get(ch, 0)
            if (ch == "," and depth == 1) or (ch == ")" and depth == 0):
                parts.append(last[start:i].strip())
                start = i + 1
        if len(parts) == len(clauses):
            return lead + "record { " + "; ".join(f"{n} = {p}" for n, p in zip(clauses, parts)) + " }"
    return lead + f"let all = {last} in record {{ " + "; ".join(f"{n} = all.{i}" for i, n in enumerate(clauses)) + " }"


def trivial(body):
    b = re.sub(r"\s+", " ", body.strip())
    return b in ("search needs", "(search needs)") or re.fullmatch(r"\(?(search needs(, )?)+\)?", b) is not None


def turn(crate, folder, entries, rename):
    """entries: for each function of the folder, under the name that its old proof has for it, the names old and new."""
    path = f"crates/{crate}/proofs/{folder}/Proof.antt"
    text = open(path, encoding="utf-8").read()
    tables = {alias: Table(entry, fn is not None) for alias, (fn, entry) in entries.items()}
    said = []
    head, uses, helpers, answers, invs, locals_, measures = [], [], [], [], [], {}, []
    seen_decl = False
    for name, lines in blocks(text):
        if name == "--":
            (head if not uses and not seen_decl else helpers).append(lines[0])
            continue
        if name == "use":
            if re.search(r"\.(Statement|Tie)\b|\.(Reads|Kinds) as |\.Lts-\w+ as |borrow\.Fn\.(Kinds|PlainCycle)|\.\{statement\}", lines[0]):
                continue
            uses.append(lines[0])
            continue
        seen_decl = True
        whole = "\n".join(lines)
        sig = re.match(r"(?:pub |abbrev |unfoldable )*\+?" + TOKEN + r" : (.*?)(?=\n(?:unfolding |" + re.escape(name) + r" )|\Z)", whole, re.S)
        what = sig.group(1) if sig else ""
        if name.endswith("-spec") or name.endswith("_spec"):
            continue
        inv = re.match(r"(" + TOKEN + r")\.((?:invariant|decreases)-\S+)", what)
        need = re.match(r"(?:\(t : ℕ\) → )?(" + TOKEN + r")\.Need-(\S+)", what)
        measure = re.match(r"Measures ", what)
        step = re.match(r"(\(t : ℕ\) )?\(c : (" + TOKEN + r")\.(?:After|At|In|Then|Else|Start|Past|Joined)", what)
        if re.match(r"ℕ → (In \d|" + TOKEN + r"\.Claims)", what):
            continue
        if measure:
            eq = re.search(r"^" + re.escape(name) + r" κs a =\s(.*)$", whole.split("\n", 1)[1], re.S | re.M)
            measures.append((name.replace("μ-", "", 1), eq.group(1)))
        elif inv and inv.group(1) in tables:
            eq = re.search(r"^" + re.escape(name) + r" (.*?) =\s(.*)$", whole.split("\n", 1)[1], re.S | re.M)
            invs.append((inv.group(1), inv.group(2), eq.group(1).split(), eq.group(2)))
        elif need and need.group(1) in tables:
            table = tables[need.group(1)]
            new, place = table.need(need.group(2))
            if new:
                new = rename(need.group(1), new)
            rest = whole[sig.end():].lstrip("\n")
            unf = re.match(r"(unfolding [^\n]*)\n", rest)
            if unf:
                rest = rest[unf.end():]
            eq = re.match(re.escape(name) + r" (.*?) =\s(.*)$", rest, re.S)
            if not eq:
                said.append("equation of " + name)
                continue
            if trivial(eq.group(2)) and not unf:
                continue
            if new is None:
                said.append("goal " + need.group(2))
                continue
            args = [a for a in eq.group(1).split() if a != "κs"]
            table.bodies[name] = (eq.group(2), place)
            body = with_locals(eq.group(2), table, place, locals_, said)
            clauses = CLAUSES.get((crate, folder.split("/")[-1]))
            if clauses and new.startswith("returns"):
                body = by_clause(body, clauses)
            answers.append((new, unf.group(1) if unf else None, args, body))
        elif step and step.group(2) in tables:
            local(name, what, whole[sig.end():].lstrip("\n"), tables[step.group(2)], locals_, said)
        else:
            helpers.append(whole)
    return head, uses, helpers, answers, invs, measures, said


def loops_of(entry):
    out = {}
    for i, (names, params) in enumerate(entry["loops"]):
        out[names[0]] = (names[1], params, entry["changed"][i])
    return out


def turn_invariant(kind, params, body, entry, said):
    m = re.match(r"(invariant|decreases)-(.*)$", kind)
    loops = loops_of(entry)
    key = next((k for k in loops if plain(k) == plain(m.group(2))), None)
    if key is None:
        said.append("loop " + kind)
        return None
    new, names, changed = loops[key]
    want = [("initial." if ch else "") + n for n, ch in zip(names, changed)] + [n for n, ch in zip(names, changed) if ch]
    if len(want) != len(params):
        said.append(f"parameters of {kind}: {params} for {want}")
        return None
    to = {p: "l." + w for p, w in zip(params, want) if p != "_"}
    body = re.sub(r"(?<![\w'.-])" + TOKEN + r"(?!\s*=)", lambda t: to.get(t.group(), t.group()), body)
    return m.group(1), new, body


def turn_measure(fn, body, params):
    def param(m):
        path = m.group(1)
        ones = len(re.match(r"(?:\.1)*", path).group()) // 2
        rest = path[2 * ones:]
        rest = rest[2:] if rest.startswith(".0") else rest
        return "l." + params[ones] + rest

    return re.sub(r"(?<![\w'.-])a((?:\.[\w'-]+)+)", param, body)


def write(crate, folder, entries, rename):
    head, uses, helpers, answers, invs, measures, said = turn(crate, folder, entries, rename)
    base = f"crates/{crate}/proofs/{folder}"
    module = f"Rattle.{crate}.proofs.{folder.replace('/', '.')}"
    uses = [u.replace("needs, ", "").replace(", needs", "").replace("{needs}", "{}") for u in uses]
    uses = [u for u in uses if "{}" not in u]
    if answers or helpers:
        out = head + ["use Rattle.std.proofs.Common.{rules, ap, not}"] + uses + [f"use {module}.Goals as goal", ""]
        for h in helpers:
            out += [h, ""]
        for new, unf, args, body in answers:
            out += [f"pub {new} : goal.{new}"] + ([unf] if unf else []) + [f"{new} {' '.join(args)} = {body}", ""]
        open(base + "/Answers.antt", "w", encoding="utf-8").write("\n".join(out))
    if invs or measures:
        out = head + uses + [f"use {module}.Given as goal", ""]
        for name, body in measures:
            fn, entry = next((fn, e) for fn, e in entries.values() if plain(fn.split("::")[-1]) == plain(name))
            params = next(p for e in entries.values() for f, p in e[1]["params"].items() if plain(f.split("::")[-1]) == plain(name))
            out += [f"abbrev pub decreases-{fn} : goal.decreases-{fn}", f"decreases-{fn} l = {turn_measure(fn, body, params)}", ""]
        for alias, kind, params, body in invs:
            got = turn_invariant(kind, params, body, entries[alias][1], said)
            if got:
                name = got[0] + "-" + rename(alias, got[1])
                out += [f"abbrev pub {name} : goal.{name}", f"{name} l = {got[2]}", ""]
        open(base + "/Invariants.antt", "w", encoding="utf-8").write("\n".join(out))
    os.remove(base + "/Proof.antt")
    for s in said:
        print(f"{folder}: {s}")


def cycle_aliases(crate, folder):
    """The names that an old proof of functions that call one another has for each of them."""
    text = open(f"crates/{crate}/proofs/{folder}/Proof.antt", encoding="utf-8").read()
    return dict(re.findall(r"\.Lts-(\w+) as (\S+)", text))


def main():
    crate, names = sys.argv[1], json.load(open(sys.argv[2]))
    only = set(sys.argv[3:])
    folders = {}
    for key, entry in names.items():
        m = re.fullmatch(r"Rattle-" + re.escape(crate) + r"-proofs\.(.*)\.Lts(?:-(\w+))?", key)
        if m:
            folders.setdefault(m.group(1).replace(".", "/"), []).append((m.group(2), entry))
    for folder, found in folders.items():
        if only and folder not in only:
            continue
        if not os.path.exists(f"crates/{crate}/proofs/{folder}/Proof.antt"):
            continue
        if found[0][0] is None:
            write(crate, folder, {"tie": (None, found[0][1])}, lambda alias, name: name)
        else:
            aliases = cycle_aliases(crate, folder)
            entries = {aliases[fn]: (fn, entry) for fn, entry in found}
            many = len(entries) > 1
            write(crate, folder, entries, lambda alias, name: f"{entries[alias][0]}-{name}" if many else name)


if __name__ == "__main__":
    main()

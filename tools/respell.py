#!/usr/bin/env python3
"""Spells the repository's own definitions and lemmas as today's library does.

usage: python3 tools/respell.py [--show]        at the top of the repository, once, right after the kit's port.py

A definition or lemma is in snake case: dataAt -> data_at, copied-first -> copied_first. A dash stays where it joins two
names, as in length-keep. Facts and types keep their capitals. What stays as it is: functions of src/, exported C names,
strings, inputs and outputs, names of a library, the goals of a Proof.antt and its F-spec, local variables.
It turns crates/*/{specs,proofs}/**/*.antt, the clauses and ghost uses of crates/*/src/*.rt, and crates/*/must-fail/*.edit.
--show writes nothing and prints the table. A second run changes nothing.
"""

import glob
import re
import sys

NAME = r'[^\s(){}.;,@"«»\[\]|]+'
# A definition that would meet a function or another item of src/ ends in _value; a lemma that would have its function's name, in _lem.

DECLARED = re.compile(rf"(?m)^[ \t]*(?:(?:pub|abbrev|unfoldable|private|data|record|module|axiom)[ \t]+)*({NAME})(?:[ \t]+\{{[^{{}}\n]*\}})*[ \t]*:[ \t\n]")
# Fields and variants, several on a line
MEMBERS = re.compile(rf"(?m)^[ \t]+(?:pub[ \t]+)?((?:{NAME}[ \t]+)+{NAME})[ \t]*:[ \t]")
TOKEN = re.compile(NAME)
LIBRARY_USE = re.compile(r"(?m)^use ([^\s{;]+)\.\{([^}]*)\}")


def read(path):
    with open(path, encoding="utf-8", newline="") as f:
        return f.read()


def antt():
    for p in sorted(glob.glob("crates/*/specs/**/*.antt", recursive=True) + glob.glob("crates/*/proofs/**/*.antt", recursive=True)):
        if "/out/" not in p:
            yield p


def is_own(module):
    return module.startswith("Rattle.") and module.split(".")[1] in OWN


ITEMS = {m.group(1) for p in glob.glob("crates/*/src/**/*.rt", recursive=True) for m in re.finditer(r"\b(?:fn|mod|const|static)\s+(\w+)", read(p))}
OWN = {p.split("/")[1] for p in glob.glob("crates/*/src")}


def code(text):
    return "\n".join(re.sub(r"(^|\s)--.*", r"\1", l) for l in text.split("\n"))


def names():
    """The declared names, those of goals, and what libraries are asked for."""
    declared, goals, library, words, defined = set(), set(), set(), set(), set()
    for p in antt():
        t = code(read(p))
        for m in DECLARED.finditer(t):
            n = m.group(1)
            rest = t[m.end() : m.end() + 60].lstrip()
            if p.endswith("Proof.antt") and (re.match(r"\(t : ℕ\) →\s+\S*(Need|Closed)-|(tie|lts|\S+-lts)\.(Need|invariant|decreases)|tie\.", rest) or n.endswith("-spec")) or re.match(r"goal\.", rest):
                goals.add(n)
            else:
                declared.add(n)
                if "/specs/" in p and m.group(0)[:1] not in " \t\n":
                    defined.add(n)
        if "/specs/" in p:
            for m in MEMBERS.finditer(t):
                if not set(m.group(1).split()) & {"let", "module", "abbrev", "unfoldable", "=", "→", "λ", "↦", "in"}:
                    declared.update(m.group(1).split())
        for m in LIBRARY_USE.finditer(t):
            if not is_own(m.group(1)):
                for w in m.group(2).split(","):
                    library.update(x for x in re.split(r"\s+as\s+|\s+", w.strip()) if x)
        words.update(TOKEN.findall(t))
    return declared, goals, library, words, defined


def snake(part):
    part = re.sub(r"(?<=[a-z0-9])([A-Z])(?=[A-Z0-9]|$|_)", lambda m: "_" + m.group(1), part) if re.search(r"[a-z0-9][A-Z]{2}", part) else part
    return re.sub(r"(?<=[a-z0-9])([A-Z])", lambda m: "_" + m.group(1).lower(), part)


def is_fact(name):
    return name[:1].isupper() and not name.isupper()


def respelled(name, known):
    """name with each part in snake case; a dash stays between two known names."""
    parts = [p if is_fact(p) or p.isupper() else snake(p) for p in name.split("-")]
    out, last = parts[0], parts[0]
    for i in range(1, len(parts)):
        dash = last in known and any("_".join(parts[i:k]) in known for k in range(i + 1, len(parts) + 1))
        out += ("-" if dash else "_") + parts[i]
        last = parts[i] if dash else last + "_" + parts[i]
    return out


def table():
    declared, goals, library, words, defined = names()
    declared = {n for n in declared if re.match(r"[^\W\d]", n) or n[0] in "≤<∀Σμ"}
    turned = {n for n in declared if "-" in n.strip("-") or re.search(r"^[a-z]([A-Z]|.*[a-z0-9][A-Z])", n) and not n.isupper()}
    turned -= library | goals
    # What a dash may join: definitions of specs/ and what is taken from libraries.
    plain = {n for n in defined | library if "-" not in n and len(n) > 1}
    known = {snake(n) for n in plain if not is_fact(n)} | {n for n in plain if is_fact(n)}
    rows = {}
    for n in sorted(turned):
        new = respelled(n, known)
        while new != respelled(new, known):
            new = respelled(new, known)
        if new != n:
            rows[n] = new
    there = words - set(rows)
    taken = {}
    for old, new in rows.items():
        taken.setdefault(new, []).append(old)
    for new, olds in sorted(taken.items()):
        for old in olds:
            if "-" in old and (len(olds) > 1 or new in there):
                rows[old] = new + "_lem"
            elif (new in there or new in ITEMS) and not old.isupper():
                rows[old] = new + "_value"
    meets, taken = [], {}
    for old, new in rows.items():
        taken.setdefault(new, []).append(old)
    for new, olds in sorted(taken.items()):
        if len(olds) > 1 or new in there:
            meets.append((new, olds, new in there))
    return rows, meets


def turn_word(rows):
    return lambda m: rows.get(m.group(0), m.group(0))


def turn_antt(t, rows):
    out = []
    for line in t.split("\n"):
        m = re.search(r"(^|\s)--", line)
        text, comment = (line, "") if not m else (line[: m.start()], line[m.start() :])
        text = re.sub(r'"(?:[^"\\]|\\.)*"|' + NAME, lambda m: m.group(0) if m.group(0)[0] == '"' else rows.get(m.group(0), m.group(0)), text)
        comment = re.sub(r"[\w-]+", lambda m: rows.get(m.group(0), m.group(0)) if re.search("[a-z][A-Z]", m.group(0)) else m.group(0), comment)
        comment = re.sub(r"`([^`\s]+)`", lambda m: "`" + TOKEN.sub(turn_word(rows), m.group(1)) + "`", comment)
        out.append(text + comment)
    return "\n".join(out)


def turn_rt(t, rows):
    def word(m):
        w = m.group(0)
        return w if w[0] in "\"'" else rows.get(w, w) if re.search("[a-z][A-Z]|-", w) else w

    return re.sub(r'b?"(?:[^"\\]|\\.)*"|' + NAME, word, t)


def main(argv):
    rows, meets = table()
    if argv == ["--show"]:
        for old, new in rows.items():
            print(f"{old}\t{new}")
        for new, olds, there in meets:
            print(f"meet: {new} <- {' '.join(olds)}{' (is there)' if there else ''}", file=sys.stderr)
        return 0
    for p in [*antt(), *sorted(glob.glob("crates/*/src/**/*.rt", recursive=True)), *sorted(glob.glob("crates/*/must-fail/*.edit"))]:
        t = read(p)
        new = turn_antt(t, rows) if p.endswith(".antt") else turn_rt(t, rows)
        if new != t:
            with open(p, "w", encoding="utf-8", newline="") as f:
                f.write(new)
    print(f"respell: {len(rows)} names")
    return 0


if __name__ == "__main__":
    raise SystemExit(main(sys.argv[1:]))

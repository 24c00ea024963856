#!/usr/bin/env python3
"""Brings the repository's own names in specifications, proofs and clauses to the spelling of today's Rattle.

Run once, at the top, after the toolchain's own script. A definition, a field and a local name are in snake case. In a
lemma's name a dash joins the names of two definitions, as in `length-without`, and a plain word is added with `_`, as in
`rung_here`. Names of the library, of generated goals and of src/ stay as they are; names that fall together are refused.
"""
import pathlib
import re
import sys

CRATES = pathlib.Path("crates")
ANSWERS = {"Answers.antt", "Choices.antt", "Invariants.antt", "Proof.antt"}
# a name and what it declares: a definition is an abbrev, an unfoldable or a type's member, anything else is a lemma
DECLARED = re.compile(r"^( *)((?:abbrev |unfoldable |pub )*)([^\s:(){};.,λ]+) : ")
WORD = re.compile(r"[^\s(){};:.,λ\[\]]+")
# what the library calls its own, where lemmas of ours speak of it
LIBRARY = {"length", "replicate", "append", "drop", "take", "set", "cond"}
# names that the toolchain's script spelled by a namesake of its own
WRONG = {"Leaves-by": "leaves_by"}


def texts():
    for path in sorted(CRATES.rglob("*")):
        if path.suffix in (".antt", ".rt") and "out" not in path.parts:
            yield path


def declared():
    """The own names: definitions, fields, and lemmas."""
    words, fields, lemmas = set(), set(), set()
    for path in texts():
        if path.suffix != ".antt" or path.name in ANSWERS:
            continue
        in_record = False
        for line in path.read_text(encoding="utf-8").splitlines():
            if re.match(r"(abbrev |unfoldable |pub )*(record|data) ", line):
                in_record = True
            elif line and not line.startswith(" "):
                in_record = False
            m = DECLARED.match(line)
            if not m or m.group(3) in ("let", "in"):
                continue
            member = in_record and m.group(1)
            kind = fields if member else words if "abbrev" in m.group(2) or "unfoldable" in m.group(2) else lemmas
            kind.add(m.group(3))
    return words, fields - words, lemmas - words - fields


def snake(name):
    return re.sub(r"(?<=[\w'])-(?=[\w'])", "_", name)


def lemma(name, words):
    parts = re.split(r"[-_]", name)
    out, last, i = "", False, 0
    while i < len(parts):
        n = next((n for n in range(len(parts) - i, 0, -1) if "_".join(parts[i : i + n]) in words), 0)
        unit = "_".join(parts[i : i + max(n, 1)])
        out += ("" if not out else "-" if last and n else "_") + unit
        last, i = bool(n), i + max(n, 1)
    return out


def main():
    words, fields, lemmas = declared()
    known = {snake(w) for w in words} | LIBRARY
    new = {w: snake(w) for w in words | fields} | {n: lemma(n, known) for n in lemmas if re.search(r"[-_]", n)} | WRONG
    # local names and aliases: what is bound by a let, a λ or an `as`, and is nobody's name
    for path in texts():
        text = path.read_text(encoding="utf-8")
        bound = set(re.findall(r"\blet ([\w'-]+) ", text)) | set(re.findall(r" as ([\w'-]+)", text))
        for names in re.findall(r"λ ([^.λ(]+)\.|\(([\w' -]+) : ", text):
            bound |= set(" ".join(names).split())
        for line in text.splitlines():
            m = re.match(r" *[\w'-]+((?: [\w'-]+)+) =$|[\w'-]+((?: [\w'-]+)+) = ", line)
            bound |= set(((m.group(1) or m.group(2)) if m else "").split())
        for name in bound:
            if "-" in name.strip("-"):
                new.setdefault(name, snake(name))
    new = {old: name for old, name in new.items() if old != name}
    back = {}
    for old, name in new.items():
        back.setdefault(name, set()).add(old)
    clash = {name: sorted(olds) for name, olds in back.items() if len(olds) > 1 or name in (words | fields | lemmas) - set(new)}
    for name, olds in sorted(clash.items()):
        print(f"falls together: {', '.join(olds)} as {name}", file=sys.stderr)
    if clash:
        raise SystemExit(1)
    if "--list" in sys.argv:
        for old, name in sorted(new.items()):
            print(old, name)
        return
    for path in texts():
        text = path.read_text(encoding="utf-8")
        lines = []
        for line in text.split("\n"):
            # generated goals are named behind `goal.` and in the imports from a module Goals, and stay
            generated = set(re.findall(r"(?:goal|given)\.([\w'+-]+)", line)) if path.name in ANSWERS else set()
            if ".Goals" in line or ".Given" in line:
                lines.append(line)
                continue
            lines.append(WORD.sub(lambda m: m.group(0) if m.group(0) in generated else new.get(m.group(0), m.group(0)), line))
        path.write_text("\n".join(lines), encoding="utf-8")


main()

#!/usr/bin/env python3
"""Brings the names of this repository's own antt definitions and lemmas to the library's spelling.

Types are in upper camel case, all else is in snake case. In the name of a lemma a dash stays where it joins the names of
definitions; a plain word is added with an underscore. Names that Rattle makes (goals, steps of a proof) and names of src/
stay as they are.

    python3 tools/respell.py [--dry]     at the top of the repository

Prints each renaming, and the names that would fall together with another one of the same file.
"""
import re
import sys
from pathlib import Path

WORD = r"[A-Za-zℕ0-9_'\-]"
TOKEN = re.compile(rf"(?<!{WORD})[A-Za-z]{WORD}*")
DECLARED = re.compile(rf"^\s*(?:(?:abbrev|unfoldable|pub)\s+)*([A-Za-z]{WORD}*) :(?= )(.*)$")
HEAD = re.compile(rf"^\s*(?:pub )?(?:record|data)\s+([A-Za-z]{WORD}*)")
# Names that would fall together with a definition's, by hand.
CHOSEN = {
    "no-clash": "clash_free",
    "lowest-failing": "lowest_fails",
    "concept-rows": "concept_rows",
    "role-rows": "role_rows",
    "pair-rows": "pair_rows",
}
# Lemmas of a crate that have the new name of a definition already: they get `_lem`.
TAKEN = {"theorem": ["rows_fit"], "words": ["number_word"]}
# Words of the library that lemmas are about.
LIBRARY = set("length append take drop map set get_or replicate reverse cond and or not min max if sum".split())


def files():
    for top in sorted(Path("crates").iterdir()):
        for folder in ("specs", "proofs", "src", "must-fail"):
            for path in sorted((top / folder).rglob("*")):
                if path.suffix in (".antt", ".rt", ".edit"):
                    yield path


def fields(lines):
    """The names of the fields of the records that a file of antt declares."""
    inside = None
    for line in lines:
        depth = len(line) - len(line.lstrip())
        if inside is not None and (depth <= inside or not line.strip()):
            inside = None
        if re.match(r"\s*(?:pub )?record\s", line):
            inside = depth
        elif inside is not None:
            found = DECLARED.match(line)
            if found:
                yield found.group(1)


def declared(path, lines):
    """The names that a file of antt declares, each with whether it is a type."""
    written = path.parts[2] == "proofs" and path.name in ("Answers.antt", "Invariants.antt", "Choices.antt", "Proof.antt")
    for line in lines:
        head = HEAD.match(line)
        if head:
            yield head.group(1), True
            continue
        found = DECLARED.match(line)
        if found and not line.strip().startswith(("record", "data", "--", "let ", "use ")):
            name, rest = found.groups()
            if written and re.match(r"\s*(goal|given|need)\.", rest):
                continue
            yield name, rest.rstrip().endswith("Type 0")


def snake(part):
    return re.sub(r"(?<=[a-z0-9])([A-Z])", lambda m: "_" + m.group(1).lower(), part)


def respelled(name, is_type, known):
    parts = name.split("-")
    if is_type and name[0].isupper():
        return parts[0] + "".join(p[:1].upper() + p[1:] for p in parts[1:])
    parts = [p if p[:1].isupper() else snake(p) for p in parts]
    return ("-" if all(p in known for p in parts) else "_").join(parts)


def main():
    dry = "--dry" in sys.argv
    text = {path: path.read_text() for path in files()}
    names, of_records = {}, set()
    for path, body in text.items():
        if path.suffix == ".antt":
            of_records |= set(fields(body.splitlines()))
            for name, is_type in declared(path, body.splitlines()):
                names[name] = names.get(name, False) or is_type
    known = LIBRARY | {snake(n) for n in names if "-" not in n}
    new = {n: respelled(n, t, known if n not in of_records else set()) for n, t in names.items()}
    # A lemma that would have the name of a definition gets `_lem`.
    definitions = {m for n, m in new.items() if "-" not in n}
    new = {n: m + "_lem" if "-" in n and m in definitions else m for n, m in new.items()}
    new.update({n: m for n, m in CHOSEN.items() if n in names})
    new = {n: m for n, m in new.items() if n != m}
    for name, made in sorted(new.items()):
        print(f"{name} -> {made}")
    for path, body in text.items():
        strings = path.suffix == ".rt"
        pieces = re.split(r'("(?:[^"\\]|\\.)*")', body) if strings else [body]
        present = set(TOKEN.findall(body))
        if strings:
            present -= set(re.findall(r"(?:fn |::|\.)([a-z_0-9]+)", body)) | set(re.findall(r"([a-z_0-9]+)\(", body))
        made_here = {}
        for name in set(TOKEN.findall(body)) & set(new):
            made_here.setdefault(new[name], []).append(name)
        for made, olds in made_here.items():
            if len(olds) > 1 or made in present:
                print(f"falls together: {path}: {', '.join(olds)} -> {made}{' (stands there)' if made in present else ''}")
        here = dict(new)
        if path.suffix == ".antt":
            here.update({n: n + "_lem" for n in TAKEN.get(path.parts[1], []) if n in new.values()})
        turned = "".join(
            p if strings and p.startswith('"') else TOKEN.sub(lambda m: here.get(m.group(0), m.group(0)), p) for p in pieces
        )
        if turned != body and not dry:
            path.write_text(turned)


main()

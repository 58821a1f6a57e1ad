#!/usr/bin/env python3
"""Brings the definitions and lemmas of this repository from camel case to today's snake case (the port to today's Rattle; run once, after
the kit's port.py, at the top of a checkout).

    python3 tools/port/respell.py            rewrites crates/**/*.antt, *.rt and *.edit, and prints each name with what it becomes
    python3 tools/port/respell.py --dry      prints the names alone

Only names that the files of specs/ and proofs/ use are touched; the functions, types, fields and strings of src/ are in snake case or begin
with a capital, so they keep their spelling. LEMMAS are names that a definition would fall together with: a lemma, or a name in a proof,
gets the ending _lem there. A name that port.py has turned already, and that an edit still has in its old spelling, takes port.py's.
"""
import os
import re
import sys

TOKEN = re.compile(r"[^\s(){}\[\];,.\"λ`:|&*<>=]+")
HUMP = re.compile(r"(?:^|(?<=[-_]))[a-z][a-z0-9]*[A-Z]")
PART = re.compile(r"[-_]")
STRING = re.compile(r'"(?:[^"\\\n]|\\.)*"')

LEMMAS = {
    "counts_of": ["crates/valuetext/proofs/StoringSteps.antt"],
    "front_of": ["crates/sheet/proofs/Admitting.antt", "crates/lister/proofs/Listing.antt"],
    "int_at": ["crates/valuetext/proofs/ReadingSteps.antt", "crates/valuetext/proofs/ReadingInts.antt"],
    "is_digit": [
        "crates/decimals/proofs/NumberText.antt",
        "crates/decimals/proofs/ShortInts.antt",
        "crates/decimals/proofs/numbers/read_digits/Proof.antt",
        "crates/decimals/proofs/numbers/few_digits/Proof.antt",
    ],
    "told_of": ["crates/checking/proofs/Judging.antt"],
    "units_of": [
        "crates/rules/proofs/Instructions/Deriving.antt",
        "crates/leaves/proofs/CountingUp.antt",
        "crates/steps/proofs/Stepping.antt",
        "crates/bodies/proofs/Entering.antt",
        "crates/guards/proofs/Asking.antt",
        "crates/guards/proofs/Levels.antt",
    ],
    "one_answer": [
        "crates/sheet/proofs/OneAnswer.antt",
        "crates/snesl/proofs/Statements/Jobs.antt",
        "crates/snesl/proofs/Jobs/OneAnswer.antt",
    ],
    "one_more": [
        "crates/formula/proofs/Scanning.antt",
        "crates/rules/proofs/Xducers/Itemwise.antt",
        "crates/leaves/proofs/Iotas.antt",
    ],
    "written_then": [
        "crates/environment/proofs/Stack.antt",
        "crates/bodies/proofs/Distributing.antt",
        "crates/guards/proofs/All.antt",
        "crates/guards/proofs/Ones.antt",
    ],
}


def files():
    for folder, dirs, names in os.walk("crates"):
        dirs[:] = sorted(d for d in dirs if d != "out")
        for name in sorted(names):
            if name.endswith((".antt", ".rt", ".edit")):
                yield os.path.join(folder, name)


def snake(part):
    if not re.match(r"[a-z]", part):
        return part
    part = re.sub(r"([A-Z]+)([A-Z][a-z])", r"\1_\2", part)
    return re.sub(r"([a-z0-9?])([A-Z])", r"\1_\2", part).lower()


def respelled(name):
    return "-".join("_".join(snake(p) for p in dashed.split("_")) for dashed in name.split("-"))


def main():
    if sys.argv[1:] not in ([], ["--dry"]):
        sys.exit(__doc__)
    texts = {}
    for path in files():
        with open(path, encoding="utf-8") as f:
            texts[path] = f.read()
    for lemma, paths in LEMMAS.items():
        for path in paths:
            texts[path] = re.sub(rf"(?<![\w'-]){lemma}(?![\w'-])", lemma + "_lem", texts[path])
    names = {}
    for text in texts.values():
        for token in TOKEN.findall(STRING.sub(" ", text)):
            if HUMP.search(token):
                names[token] = respelled(token)
    for name in sorted(names):
        print(name, names[name])
    if "--dry" in sys.argv:
        return

    def turn(text):
        return TOKEN.sub(lambda m: names.get(m.group(0), m.group(0)), text)

    for path, text in texts.items():
        parts, at = [], 0
        for m in STRING.finditer(text):
            parts += [turn(text[at:m.start()]), m.group(0)]
            at = m.end()
        with open(path, "w", encoding="utf-8") as f:
            f.write("".join(parts) + turn(text[at:]))


main()

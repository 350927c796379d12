#!/usr/bin/env python3
"""Brings the names of definitions and lemmas to snake case, after port.py of the kit has run.

usage: python3 tools/port-names.py     at the top of the repository, once

A word such as `unitByte` of contracts, specs/, proofs/ and must-fail/ becomes `unit_byte`, also as a part of a lemma's name (`cnt-someOf`
becomes `cnt-some_of`). Types and modules keep their capital, words of one letter and a capital (`eA`) are variables and stay. A lemma that would
then have its function's name gets `_lem`. Functions of src/, exported names and strings are in snake case already and are not touched.
"""

import os
import re

# Words of strings, and of the library.
STAY = {"viewBox", "crispEdges", "walk_Meets", "at_Meets", "mut_Tells", "mut_slice_Tells", "shr_Lawful", "shr_Tells", "shr_slice_Lawful", "shr_slice_Tells"}
# Lemmas whose names would fall together with the definitions entryPlace, inGroup, ownerOf, wordValue, onBoth and leftOut.
LEMMAS = ["entry_place", "in_group", "owner_of", "word_value", "on_both", "left_out"]
# A fact is spelled as a type.
FACTS = {"gridPlace": "GridPlace"}

CAMEL = re.compile(r"(?<![A-Za-z0-9_'])[a-z][A-Za-z0-9_]*[A-Z][A-Za-z0-9_]*")
LEMMA = re.compile(r"(?<![A-Za-z0-9_'-])(" + "|".join(LEMMAS) + r")(?![A-Za-z0-9_'-]|\.(?:Statement|Tie|Met|Goals|Given))")


def snake(word):
    if word in STAY or re.fullmatch(r"[a-z][A-Z]", word):
        return word
    return FACTS.get(word) or re.sub("[A-Z]", lambda m: "_" + m.group(0).lower(), word)


def turned(path, text):
    if path.endswith(".antt"):
        text = LEMMA.sub(r"\1_lem", text)
    return CAMEL.sub(lambda m: snake(m.group(0)), text)


def main():
    for folder, dirs, files in os.walk("crates"):
        dirs[:] = [d for d in dirs if d != "out"]
        for name in files:
            if not name.endswith((".antt", ".rt", ".edit")):
                continue
            path = os.path.join(folder, name)
            with open(path, encoding="utf-8") as f:
                text = f.read()
            new = turned(path, text)
            if new != text:
                with open(path, "w", encoding="utf-8") as f:
                    f.write(new)


if __name__ == "__main__":
    main()

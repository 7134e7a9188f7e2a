#!/usr/bin/env python3
"""Brings the names of records' fields, of constructors and inside sections to snake case; in a member a dash becomes `_`, also where it joins two names.

usage: python3 tools/respell_members.py [--table]    at the top of the repository, once, after tools/respell.py
"""
import re
import sys

from respell import PLAIN, TEXTS, WORD, camel_to_snake, files, read, turn_files

# Two that would fall together with definitions get other names.
OTHER_NAMES = {"clause-of": "clause_of_variable", "trail-length": "length_of_trail"}
# Names inside sections of lemma files, and names that an import gives.
INNER = {
    n: camel_to_snake(n)
    for n in (
        "versionSet versionSet< singlePlace unionPlace unionKey toRest recordRows unionTable toCounts toMap toVariables toValues tableNumber tableMade "
        "noLeaf noAnd isAnd examinedBy countUndecided-on poppedTo-more"
    ).split()
}
DATA = re.compile(r"^(?:abbrev )?(?:pub )?(?:data|record) [^\n]*where\n((?:  .*\n|\n(?=  ))+)", re.M)
MEMBER = re.compile(rf"^  (?:pub )?({WORD})(?: [^\n:]*)? : ", re.M)


def members():
    found, words = set(), set()
    for path in files(TEXTS):
        text = read(path)
        words |= set(re.findall(PLAIN, text))
        for block in DATA.finditer(text):
            found |= {m.group(1) for m in MEMBER.finditer(block.group(1)) if "-" in m.group(1)}
    table = {n: n.replace("-", "_") for n in sorted(found)}
    free = {n: new for n, new in table.items() if new not in words}
    return INNER | OTHER_NAMES | free, {n: new for n, new in table.items() if new in words and n not in OTHER_NAMES}


def members_turned():
    table, kept = members()
    if sys.argv[1:] == ["--table"]:
        print("\n".join(f"{n}\t{new}" for n, new in table.items()), *(f"kept: {n} (another is named {new})" for n, new in kept.items()), sep="\n")
        return
    turn_files(antt=table, others=table, pages=table)


if __name__ == "__main__":
    members_turned()

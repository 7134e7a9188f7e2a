#!/usr/bin/env python3
"""Brings the names of the project's own definitions and lemmas to snake case.

usage: python3 tools/respell.py [--table]    at the top of the repository, once, after the toolchain's port.py

A name is taken up where a file of specs/, or a file right in proofs/, defines it at the left margin or as a field of a record. A name in camel case
(`countUndecided`) becomes one of words joined by `_`. In a lemma's name a dash stays only where it joins two names of definitions (`at-put_same`);
else it becomes `_`. Lemmas that have such a spelling already make way first (MAKE_WAY); any other name whose new spelling a file has keeps its old one, and is shown.
--table prints the table and writes nothing.
Words of .antt files turn, the clauses, `ghost use` items and comments of .rt files, must-fail edits, and code spans of .md files; strings stay.
"""
import glob
import re
import sys

WORD = r"[^\s(){}.;,@\"«»:`]+"
ITEM = re.compile(rf"^(?:abbrev |unfoldable |opaque )*(?:pub )?(data |record )?(?:pub )?({WORD})((?: [^=\n]*?)?) : ", re.M)
PLAIN = rf"(?<![^\s(){{}},;@\"«»:`]){WORD}"  # not behind a dot, where a function of that name may stand in a path
FIELD = re.compile(rf"^ +pub ({WORD})((?: [^=\n]*?)?) : ", re.M)
# Lemmas that a definition's new spelling would meet: they make way first.
MAKE_WAY = {"is_true": "true_of"} | {
    n: n.replace("-", "_") + "_lem"
    for n in (
        "by_rank cells_left clear_of has_room in_order list_count no_room no_stop other_name row_fits rows_apart same_row "
        "cell-value lengths-left literal-count literals-under mirrored-words next-left of-key old-entries proposal-left "
        "proposal-values raw-copied raw-decision record-in sound-shape touched-in"
    ).split()
}
# Spellings that a file takes from the logic's library alone.
OTHERS = {"is_false"}
TEXTS = ["crates/*/specs/**/*.antt", "crates/*/proofs/**/*.antt"]


def read(path):
    with open(path, encoding="utf-8") as f:
        return f.read()


def files(patterns):
    return sorted({p for pattern in patterns for p in glob.glob(pattern, recursive=True)})


def camel_to_snake(name):
    return re.sub(r"(?<=[a-z0-9])([A-Z])", lambda m: "_" + m.group(1).lower(), name)


def is_camel(name):
    return bool(re.match(r"[a-z][a-z0-9_]*[A-Z]", name.split("-")[0]))


def made():
    """The table from old names to new ones, and the names that keep their spelling since another has the new one."""
    defined = set()
    for path in files(["crates/*/specs/**/*.antt", "crates/*/proofs/*.antt"]):
        text = read(path)
        defined |= {m.group(2) for m in ITEM.finditer(text)} | {m.group(1) for m in FIELD.finditer(text)}
    heads = {camel_to_snake(n) for n in defined if "-" not in n}
    words = set()
    for path in files(TEXTS):
        words |= set(re.findall(PLAIN, turned(MAKE_WAY, read(path))))
    table, kept = {}, {}
    for name in sorted(defined):
        parts = [camel_to_snake(p) if re.match(r"[a-z]", p) else p for p in name.split("-")]
        new = parts[0]
        for k in range(1, len(parts)):
            joins = parts[k - 1] in heads and parts[k] in heads
            new += ("-" if joins else "_") + parts[k]
        if name in MAKE_WAY or not re.match(r"[A-Za-z]", name) or new == name:
            continue
        (table if (new not in words or new in OTHERS) and new not in table.values() else kept)[name] = new
    return table, kept


def turned(table, text):
    """Whole words of a text by a table; a lemma that makes way is never behind a dot, where the word is a function's."""
    def one(m):
        behind = m.start() > 0 and text[m.start() - 1] == "."
        return m.group(0) if behind and m.group(0) in MAKE_WAY else table.get(m.group(0), m.group(0))
    return re.sub(WORD, one, text)


def in_clauses(table, text):
    """A .rt file: names with a dash turn in clauses, ghost items and comments alone, since in code a dash is a minus."""
    # no lemma that makes way is named there: such a word is a function's
    plain = {k: v for k, v in table.items() if "-" not in k}
    out = []
    for line in text.split("\n"):
        ghost = re.match(r"\s*(//|ghost |requires|ensures|#!?\[tactic)", line)
        out.append(turned(table if ghost else plain, line) if '"' not in line or ghost else line)
    return "\n".join(out)


def turn(path, by):
    text = read(path)
    new = by(text)
    if new != text:
        with open(path, "w", encoding="utf-8") as f:
            f.write(new)


def turn_files(antt, others, pages):
    """Turns every file, by a table for .antt files, one for sources and edits, and one for the code spans of pages."""
    for path in files(TEXTS):
        turn(path, lambda text: turned(antt, text))
    for path in files(["crates/*/src/**/*.rt"]):
        turn(path, lambda text: in_clauses(others, text))
    for path in files(["crates/*/must-fail/*.edit"]):
        turn(path, lambda text: turned(others, text))
    for path in ["README.md"] + files(["docs/**/*.md", "host/**/*.md"]):
        turn(path, lambda text: re.sub(r"`[^`\n]+`", lambda m: turned(pages, m.group(0)), text))


def main():
    table, kept = made()
    lemmas = MAKE_WAY | table
    if "--table" in sys.argv[1:]:
        for name, new in lemmas.items():
            print(name, new, sep="\t")
        for name, new in kept.items():
            print(f"kept: {name} (another is named {new})")
        return
    # No source and no clause names a lemma that makes way: such a word is a function's.
    turn_files(antt=lemmas, others=table, pages=table | {k: v for k, v in MAKE_WAY.items() if "-" in k})


if __name__ == "__main__":
    main()

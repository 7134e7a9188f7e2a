#!/usr/bin/env python3
"""Counts the places in src/ that older forms of the language left, point by point as docs/DESIGN-PASS.md numbers them.

    places.py [FOLDER]      FOLDER is a checkout's top, by default this one; with -v each place is named
"""
import re
import sys
from collections import Counter, defaultdict
from pathlib import Path

verbose = "-v" in sys.argv
rest = [a for a in sys.argv[1:] if a != "-v"]
TOP = Path(rest[0] if rest else Path(__file__).resolve().parent.parent)
FILES = sorted(TOP.glob("crates/*/src/*.rt"))
TEXT = {f: f.read_text(encoding="utf-8") for f in FILES}


def name(f):
    return f"{f.parent.parent.name}/{f.name}"


def functions():
    """Each function: its file, name, head (with its clauses) and body."""
    for f, text in TEXT.items():
        lines = text.split("\n")
        i = 0
        while i < len(lines):
            m = re.match(r"(\s*)(?:pub )?(?:unsafe )?(?:extern \"C\" )?fn (\w+)", lines[i])
            if not m:
                i += 1
                continue
            start, indent = i, m[1]
            while i < len(lines) and not (lines[i] == indent + "}" or lines[i].endswith("{}")):
                i += 1
            whole = lines[start : i + 1]
            cut = next((k for k, l in enumerate(whole) if l == indent + "{" or (k == 0 and l.endswith("{")) or l.startswith(indent + ") ") and l.endswith("{")), len(whole))
            yield f, m[2], "\n".join(whole[:cut + 1]), "\n".join(whole[cut + 1 :])
            i += 1


FUNCTIONS = list(functions())


def conjuncts(clause):
    depth, parts, current = 0, [], ""
    for c in clause:
        depth += (c in "({[") - (c in ")}]")
        if c == "×" and depth == 0:
            parts.append(current)
            current = ""
        else:
            current += c
    parts.append(current)
    for p in parts:
        p = p.strip()
        while p.startswith("(") and p.endswith(")"):
            p = p[1:-1].strip()
        yield p


def show(point, what, places):
    print(f"{point}  {what}: {len(places)}")
    if verbose:
        for p in places:
            print(f"      {p}")


# 1: enums with a refusal's number or of the shape of an option; constants that number kinds and refusals.
enums = []
for f, text in TEXT.items():
    for m in re.finditer(r"^(?:pub )?enum (\w+) \{\n(.*?)^\}", text, re.M | re.S):
        variants = re.findall(r"^    (\w+)", m[2], re.M)
        if "Refused" in variants or (len(variants) == 2 and re.search(r"^    \w+[({]", m[2], re.M) and re.search(r"^    \w+,", m[2], re.M)):
            enums.append(f"{name(f)}: {m[1]}")
show(1, "enums of the shape of Option or Result", enums)
codes = [f"{name(f)}: {m[1]}" for f, text in TEXT.items() for m in re.finditer(r"^pub const ([A-Z_]+): (?:u32|u64) =", text, re.M)]
show(1, "constants that number kinds, refusals or words", codes)

# 2: functions whose bodies are the same but for names in capitals, types and numbers.
shapes = defaultdict(list)
for f, fn, head, body in FUNCTIONS:
    shape = re.sub(r"\b[A-Z]\w*\b|\b\d[\d_]*\b|b?\"[^\"]*\"", "_", re.sub(r"\s+", " ", body))
    if len(shape) > 12:
        parameters = re.sub(r"\b\w+::|\s+", "", re.search(r"\((.*?)\)(?: ->|$|\s)", head, re.S)[1]) if re.search(r"\((.*?)\)(?: ->|$|\s)", head, re.S) else ""
        shapes[(shape, re.sub(r"\w+:", ":", re.sub(r"\b[A-Z]\w*\b|\d+", "_", parameters)))].append(f"{name(f)}: {fn}")
twins = [" = ".join(v) for v in shapes.values() if len(v) > 1]
show(2, "groups of functions alike but for types and constants", twins)
print(f"   functions in them: {sum(t.count(' = ') + 1 for t in twins)}")

# 3: loops by `while`.
show(3, "while loops", [f"{name(f)}: {fn}" for f, fn, head, body in FUNCTIONS for m in re.finditer(r"\bwhile ", body)])

# 4: matches that only say true or false; empty branches that turn a test round; loops that compare or print by hand.
show(4, "matches whose arms are true and false alone", [f"{name(f)}: {fn}" for f, fn, head, body in FUNCTIONS if re.search(r"=> true", body) and re.search(r"=> false", body)])
show(4, "`if p {} else {`", [f"{name(f)}: {fn}" for f, fn, head, body in FUNCTIONS for m in re.finditer(r"\) \{\} else \{", body)])

# 5: facts that stand in the contracts of three or more functions, by their text.
facts = Counter()
for f, fn, head, body in FUNCTIONS:
    seen = set()
    for m in re.finditer(r"(?:requires|ensures) (?:\w+ )?\{ (.*) \}$", head, re.M):
        seen |= set(conjuncts(m[1]))
    facts.update(x for x in seen if not x.startswith(("result ≡", "s.new ≡", "out.new ≡")))
show(5, "facts in three contracts or more", [f"{n}: {fact}" for fact, n in facts.most_common() if n >= 3])

# 6: arrays of a fixed size that are locals or parameters beside a count.
show(6, "functions with an array of fixed room", [f"{name(f)}: {fn}" for f, fn, head, body in FUNCTIONS if re.search(r"\[\w+; [A-Z_]+\]", head + body)])

# 7: parameters that are switches.
show(7, "bool parameters", [f"{name(f)}: {fn}" for f, fn, head, body in FUNCTIONS if re.search(r"\w+: bool[,)]", head)])

# 8: proofs.
answers = [p for p in TOP.glob("crates/*/proofs/**/*.antt") if p.name in ("Answers.antt", "Proof.antt")]
lines = sum(len(p.read_text(encoding="utf-8").splitlines()) for p in TOP.glob("crates/*/proofs/**/*.antt"))
print(f"8  files of answers: {len(answers)}; lines of proofs: {lines}")

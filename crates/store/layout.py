#!/usr/bin/env python3
"""Writes src/areas.rt and specs/Layout.antt from the table layout.txt, as rt fmt would leave them.

    layout.py           writes those that differ
    layout.py --check   writes none: names those that differ, and fails if there is one
"""
import re
import sys
from collections import namedtuple
from pathlib import Path
from string import Template

STORE = Path(__file__).resolve().parent
WRITTEN = "crates/store/layout.py writes this file from crates/store/layout.txt: a change belongs there."

Area = namedtuple("Area", "name words largest holds")
Region = namedtuple("Region", "name holds areas")


# The table.


def text_of(file):
    return (STORE / file).read_text(encoding="utf-8")


def constants_of(specs, names, source, function):
    """What the source calls each number of the list `names` of the specs: `function` is proved to return that list."""
    listed = re.search(rf"^{names} = (.*) ∷ \[\]$", text_of(specs), re.M)[1]
    returned = re.search(rf"^pub fn {function}\(\).*?^    \[(.*?)\]", text_of(source), re.M | re.S)[1]
    return dict(zip(listed.split(" ∷ "), re.findall(r"\w+", returned)))


LIMITS = constants_of("specs/Limits.antt", "sizes_of", "src/limits.rt", "sizes")
CODES = constants_of("specs/Codes.antt", "codes_of", "src/codes.rt", "all")


def wrong(number, why):
    sys.exit(f"crates/store/layout.txt, line {number}: {why}")


def regions_of_table():
    regions = []
    for number, line in enumerate(text_of("layout.txt").splitlines(), 1):
        if not line.strip() or line.startswith("#"):
            continue
        heading = re.fullmatch(r"\[(\w+)\] (.*)", line)
        if heading:
            regions.append(Region(heading[1], heading[2], []))
            continue
        fields = [field.strip() for field in line.split("|")]
        if len(fields) != len(Area._fields):
            wrong(number, f"an area has {len(Area._fields)} fields, here are {len(fields)}")
        area = Area(*fields)
        if not (area.words == "1" or area.words in LIMITS):
            wrong(number, f"its words are 1 or a limit, and no limit is named '{area.words}'")
        if not (area.largest == "any" or area.largest.isdecimal() or area.largest in LIMITS or area.largest in CODES):
            wrong(number, f"no limit or code is named '{area.largest}'")
        if not regions:
            wrong(number, "no region is named above the first area")
        regions[-1].areas.append(area)
    return regions


REGIONS = regions_of_table()
AREAS = [area for region in REGIONS for area in region.areas]
RANGED = [area for area in AREAS if area.largest != "any"]
UNRANGED = [area for area in AREAS if area.largest == "any"]


# How names, numbers and comments are written in the source.


def constant(name):
    return name.upper()


def value(name):
    if name in LIMITS:
        return f"limits::{LIMITS[name]}"
    if name in CODES:
        return f"codes::{CODES[name]} as usize"
    return f"{int(name):_}"


def capital(words):
    return words[0].upper() + words[1:]


def fitted(opening, items, closing):
    """A call or an array that is a function's result. rt fmt keeps it on one line if the items take at most 60 columns."""
    inside = ", ".join(items)
    if len(inside) <= 60:
        return f"    {opening}{inside}{closing}"
    return "\n".join([f"    {opening}"] + [f"        {item}," for item in items] + [f"    {closing}"])


# The constants.

AREAS_FILE = Template("""\
// The areas of the store, one behind the other. Code above names an area, never a number.
// $written
ghost use Rattle.std.specs.Prelude.{◌≡◌};
ghost use Rattle.store.specs.Layout.{table, unranged_of};

use crate::area::{Area, Range};
use crate::{codes, limits};

$constants

$parts

// How many words a store needs.
pub const WORDS: usize = $last.base + $last.size;

// How many areas hold numbers that have a range.
pub const ROWS: usize = $rows;

// Each of them, with the largest number that a word of it may hold.
pub fn layout() -> [Range; ROWS]
    ensures { result ≡ table }
{
    [
$layout
    ]
}

// The other areas, and the number of words.
pub fn unranged() -> [usize; $others]
    ensures { result ≡ unranged_of }
{
$unranged
}
""")

CONSTANT = Template("""\
// $holds.
pub const $name: Area = Area {
    base: $base,
    size: $size,
};""")

# The lists of the singles, and behind them those of the unions: as the specs have them.
PARTS = [
    ("where the lists of the singles begin", "SINGLE_STARTS", "LIST_STARTS.base", "limits::VERSION_SETS"),
    ("how long they are", "SINGLE_LENGTHS", "LIST_LENGTHS.base", "limits::VERSION_SETS"),
    ("where the lists of the unions begin", "UNION_STARTS", "LIST_STARTS.base + limits::VERSION_SETS", "limits::UNION_LISTS"),
    ("how long they are", "UNION_LENGTHS", "LIST_LENGTHS.base + limits::VERSION_SETS", "limits::UNION_LISTS"),
]

def areas_file():
    constants = []
    for before, area in zip([None] + AREAS, AREAS):
        # The size by its limit, not as the other area's: a constant that names another twice has twice its expressions.
        base = f"{constant(before.name)}.base + {value(before.words)}" if before else "0"
        constants.append(CONSTANT.substitute(holds=capital(area.holds), name=constant(area.name), base=base, size=value(area.words)))
    others = [item for a in UNRANGED for item in (f"{constant(a.name)}.base", f"{constant(a.name)}.size")] + ["WORDS"]
    return AREAS_FILE.substitute(
        written=WRITTEN,
        constants="\n\n".join(constants),
        parts="\n\n".join(CONSTANT.substitute(holds=capital(holds), name=name, base=base, size=size) for holds, name, base, size in PARTS),
        last=constant(AREAS[-1].name),
        rows=len(RANGED),
        layout="\n".join(f"        {constant(a.name)}.up_to({value(a.largest)})," for a in RANGED),
        others=len(others),
        unranged=fitted("[", others, "]"),
    )


# The specs.

SPECS_FILE = Template("""\
-- The layout of the words: every area by its name, one behind the other, those that calls write most first.
-- `areas::layout` and `areas::unranged` prove that the source has the same numbers.
-- $written
use Rattle.std.specs.Prelude.{ℕ, ◌+◌, ◌-◌, List, [], ◌∷◌}
use Rattle.store.specs.Area.{Area, Range, ◌upto◌}
use Rattle.store.specs.Codes.{$codes}
use Rattle.store.specs.Limits.{$limits}

-- an area of n words behind another
abbrev pub behind : Area → ℕ → Area
behind a n = record { base = a.base + a.size; size = n }

$areas

-- n words of an area, from its word k on
abbrev pub part : Area → ℕ → ℕ → Area
part a k n = record { base = a.base + k; size = n }

-- where the lists of the singles begin
abbrev pub single_starts : Area
single_starts = part list_starts 0 version_sets

-- how long they are
abbrev pub single_lengths : Area
single_lengths = part list_lengths 0 version_sets

-- where the lists of the unions begin
abbrev pub union_starts : Area
union_starts = part list_starts version_sets union_lists

-- how long they are
abbrev pub union_lengths : Area
union_lengths = part list_lengths version_sets union_lists

-- how many words a store needs
abbrev pub words : ℕ
words = $last.base + $last.size

-- the areas from one to another
abbrev pub region : Area → Area → Area
region a b = record { base = a.base; size = b.base + b.size - a.base }

$regions

-- all that the walk reads but the assignment: settings, clauses and tables
abbrev pub environment_region : Area
environment_region = region $settings $last

-- every area whose numbers have a range, with the largest number that a word of it may hold; for an activity that is "would pass 9"
abbrev pub table : List Range
table =
    $table

-- the areas whose words may be any u32, but for one number in the map
abbrev pub unranged_of : List ℕ
unranged_of = $unranged
""")


def definition(comment, name, value):
    return f"-- {comment}\nabbrev pub {name} : Area\n{name} = {value}"


def specs_file():
    areas = []
    for before, area in zip([None] + AREAS, AREAS):
        value = f"behind {before.name} {area.words}" if before else f"record {{ base = 0; size = {area.words} }}"
        areas.append(definition(area.holds, area.name, value))
    regions = []
    for region in REGIONS:
        # The comment of the first says what they all are.
        comment = region.holds if regions else f"what the calls of each module write. {capital(region.holds)}"
        regions.append(definition(comment, region.name, f"region {region.areas[0].name} {region.areas[-1].name}"))
    # The numbers that the parts name, and those of the areas.
    named = {"version_sets", "union_lists"} | {a.words for a in AREAS} | {a.largest for a in AREAS}
    return SPECS_FILE.substitute(
        written=WRITTEN,
        codes=", ".join(code for code in CODES if code in named),
        limits=", ".join(limit for limit in LIMITS if limit in named),
        areas="\n\n".join(areas),
        last=AREAS[-1].name,
        regions="\n\n".join(regions),
        settings=next(region.areas[0].name for region in REGIONS if region.name == "settings_region"),
        table="\n    ∷ ".join([f"{area.name} upto {area.largest}" for area in RANGED] + ["[]"]),
        unranged=" ∷ ".join([f"{area.name}.base ∷ {area.name}.size" for area in UNRANGED] + ["words", "[]"]),
    )


TEXTS = {
    "src/areas.rt": areas_file(),
    "specs/Layout.antt": specs_file(),
}


def main(arguments):
    if arguments not in ([], ["--check"]):
        sys.exit("usage: layout.py [--check]")
    differing = [file for file, text in TEXTS.items() if not (STORE / file).exists() or text_of(file) != text]
    for file in differing:
        if arguments:
            print(f"layout: crates/store/{file} is not what crates/store/layout.py writes")
        else:
            (STORE / file).write_text(TEXTS[file], encoding="utf-8")
            print(f"layout: crates/store/{file} is written")
    return 1 if arguments and differing else 0


sys.exit(main(sys.argv[1:]))

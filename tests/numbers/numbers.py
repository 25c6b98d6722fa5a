"""Holds the numbers that have a name to one value: as a constant of the code or a variant of an enum there (BlankCell is BLANK_CELL), in the definitions (a dash for each underscore) and in include/feohanna.h (FEO_ before it).

Where a crate has a name in both its code and its definitions, the values are equal; refusals, kinds, lengths, results, actions and events stand in both. The header's refusals, actions and
events are those of the code, and it has every length of the code but TEN, some with _LEN behind the name; the rooms of its sheets are those that sheet_room proves to be enough, and its results of
a context (CONTEXT_ before the name) have those of the code.
"""
import glob
import re
import sys

CONSTANT = re.compile(r"^\s*pub const ([A-Z][A-Z0-9_]*): \w+ = (0x[0-9a-fA-F]+|\d+);", re.M)
ENUM = re.compile(r"^pub enum (\w+) \{\n(.*?)^\}$", re.M | re.S)
VARIANT = re.compile(r"^    (\w+)(?: = (0x[0-9a-fA-F]+|\d+))?,$", re.M)
DEFINED = re.compile(r"^abbrev pub ([A-Z][A-Z0-9-]*|····) : ℕ\n\1 = (0x[0-9a-fA-F]+|\d+)$", re.M)
HEADER = "include/feohanna.h"
LENGTHS = "crates/numbers/src/lengths.rt"
ROOM = "crates/sheet_room/proofs/Room.antt"
RESULTS = "crates/numbers/src/results.rt"
BOTH = [
    ("crates/numbers/src/refusals.rt", "crates/numbers/specs/Refusals.antt"),
    ("crates/numbers/src/kinds.rt", "crates/numbers/specs/Kinds.antt"),
    (LENGTHS, "crates/numbers/specs/Lengths.antt"),
    (RESULTS, "crates/numbers/specs/Results.antt"),
    ("crates/table/src/actions.rt", "crates/table/specs/ActionNames.antt"),
    ("crates/table/src/events.rt", "crates/table/specs/EventNames.antt"),
]
ENUMS = [
    ("crates/numbers/src/refusals.rt", "feo_refusal_number"),
    ("crates/table/src/actions.rt", "feo_action_number"),
    ("crates/table/src/events.rt", "feo_event_number"),
]


def read(path):
    with open(path, encoding="utf-8") as f:
        return f.read()


def named(pattern, paths):
    """name -> value, with the names as the code has them"""
    return {name.replace("····", "NO_ACTION").replace("-", "_"): int(value, 0) for path in sorted(paths) for name, value in pattern.findall(read(path))}


def coded(paths):
    """name -> value, of the code: its constants, and the variants of an enum that has a number for each"""
    found = named(CONSTANT, paths)
    for path in sorted(paths):
        for _, variants in ENUM.findall(read(path)):
            given = VARIANT.findall(variants)
            if given and all(value for _, value in given):
                for name, value in given:
                    name = re.sub(r"(?<!^)(?=[A-Z])", "_", name).upper()
                    if found.setdefault(name, int(value, 0)) != int(value, 0):
                        sys.exit(f"{path}: {name} is {found[name]} and {int(value, 0)}")
    return found


def enum(name):
    """what an enum of the header names, without FEO_"""
    found = re.search(r"enum %s \{(.*?)\};" % name, read(HEADER), re.S)
    if not found:
        sys.exit(f"{HEADER} has no enum {name}")
    return {n: int(v) for n, v in re.findall(r"\bFEO_(\w+) = (\d+)", found.group(1))}


def macros():
    """the numbers that the header defines, without FEO_ and _LEN"""
    return {n: int(v) for n, v in re.findall(r"^#define FEO_(\w+?)(?:_LEN)? (\d+)$", read(HEADER), re.M)}


def rooms(path, pattern):
    """the most records of a proposal's and of an answer's sheet"""
    return {name.upper(): int(most) for name, most in re.findall(pattern, read(path), re.M)}


def main():
    wrong, compared = [], 0

    def same(what, ours, theirs, where):
        nonlocal compared
        for name in ours.keys() & theirs.keys():
            compared += 1
            if ours[name] != theirs[name]:
                wrong.append(f"{what}: {name} is {ours[name]}, and {theirs[name]} in {where}")

    def both(what, ours, theirs, where):
        for name in sorted(ours.keys() ^ theirs.keys()):
            wrong.append(f"{name} stands in {what if name in ours else where}, and not in {where if name in ours else what}")

    for crate in sorted(path.split("/")[1] for path in glob.glob("crates/*/src")):
        code = coded(glob.glob(f"crates/{crate}/src/**/*.rt", recursive=True))
        specs = named(DEFINED, glob.glob(f"crates/{crate}/specs/**/*.antt", recursive=True))
        same(f"crates/{crate}", code, specs, "its definitions")
    for source, definitions in BOTH:
        both(source, coded([source]), named(DEFINED, [definitions]), definitions)
    lengths = {name: value for name, value in named(CONSTANT, [LENGTHS]).items() if name != "TEN"}
    header = [(source, coded([source]), enum(name), f"{HEADER}, {name}") for source, name in ENUMS]
    header.append((LENGTHS, lengths, {name: value for name, value in macros().items() if name in lengths}, HEADER))
    header.append((ROOM, rooms(ROOM, r"^pub (\w+)_most : .* ≤ 132 \* (\d+)$"), rooms(HEADER, r"^#define FEO_(\w+)_ROOM \(FEO_RECORD_LEN \* (\d+)\)$"), HEADER))
    for pair in header:
        same(*pair)
        both(*pair)
    results, given = {name.replace("CONTEXT_", "", 1): value for name, value in enum("feo_context_result_number").items()}, named(CONSTANT, [RESULTS])
    same(RESULTS, given, results, f"{HEADER}, feo_context_result_number")
    wrong.extend(f"{HEADER} has no result {name}, which {RESULTS} names" for name in sorted(given.keys() - results.keys()))
    for line in wrong:
        print(line)
    if wrong or not compared:
        sys.exit(f"{len(wrong)} wrong" if wrong else "no number has a name")
    print(f"{compared} names have one value each")


main()

"""Counts the definitions apart: those that a reader must believe (crates/*/specs/) and those that nobody must (crates/*/specs/Private/).

    believed.py           holds docs/TRUST.md to the counts, and the private definitions to their being private
    believed.py --write   writes the counts there anew
    believed.py --crates  prints them by crate

A line counts unless it is blank, a comment or a `use`. A private definition is used by no definition that must be believed, by no contract of a public function or
method, by no invariant and no ghost member of a public type or trait, and docs/PROMISES.md cites it as no definition.
"""
import glob
import os
import re
import sys

PAGE = "docs/TRUST.md"
OPENS, CLOSES = "<!-- counted: by tests/promises/believed.py -->", "<!-- end of counted -->"
HEADER = re.compile(r"((?:.*\n)*?)^ *\{\n", re.M)
PRIVATE = re.compile(r"^ *(?:ghost )?use [^\s{]*\bPrivate\b[^\s{;]*(?:\{([^}]*)\}| as (\S+?))?;?$", re.M)  # the names that a `use` brings, or the module's own


def read(path):
    with open(path, encoding="utf-8") as f:
        return f.read()


def lines(path):
    return sum(1 for line in read(path).split("\n") if line.strip() and not re.match(r"\s*(--|use\b)", line))


def private(path):
    return re.search(r"/specs/Private(/|\.antt$)", path) is not None


def counts():
    """crate -> (lines to believe, files, private lines, files), without the files that only list modules"""
    found = {}
    for path in sorted(glob.glob("crates/*/specs/**/*.antt", recursive=True)):
        if re.search(r"/specs/(Lib|Private)\.antt$", path):
            continue
        crate = found.setdefault(path.split("/")[1], [0, 0, 0, 0])
        k = 2 if private(path) else 0
        crate[k] += lines(path)
        crate[k + 1] += 1
    return found


def public_types(crate):
    return {name for path in glob.glob(f"crates/{crate}/src/**/*.rt", recursive=True) for name in re.findall(r"^pub (?:struct|enum|trait) (\w+)", read(path), re.M)}


def chunks(text, indent):
    """the items of a file, or with an indent the members of a block, each from its first line to its last"""
    lines = [line for line in text.split("\n") if not re.match(r"\s*(//|#|(?:pub )?(?:ghost )?use\b)", line)]
    found = []
    for line in lines:
        opens = re.match(indent + r"[^\s})]", line)
        if opens and not (found and re.match(indent + r"(where|ensures|requires|\{)", line)):
            found.append("")
        if found:
            found[-1] += line + "\n"
    return found


def header(item):
    """a function up to its body: its types and its clauses"""
    opened = HEADER.match(item)
    return opened.group(1) if opened else item


def said(text, types):
    """what a source says to whoever calls it: (of what, its words)"""
    for item in chunks(text, ""):
        named = re.match(r"(pub )?(?:\w+ )*?(?:fn|struct|enum|trait|type|const|static) (?!fn\b)(\w+)", item)
        block = re.match(r"(?:unsafe )?impl\b(.*?)(?=\{|\bwhere\b|\n)", item)
        if block:
            words = re.findall(r"\w+", re.sub(r"<[^<>]*>", "", re.sub(r"<[^<>]*>", "", block.group(1))))
            if words[-1] in types or not re.search(r"^(?:pub\(crate\) )?(?:struct|enum) " + words[-1] + r"\b", text, re.M):
                yield f"the impl of {words[-1]}", item.split("{")[0]
                for member in chunks(item.split("\n", 1)[1], "    "):
                    if " for " in block.group(1) or not re.match(r"    (?:\w+ )*fn ", member) or member.startswith("    pub "):
                        yield f"`{member.strip().split('(')[0].split('=')[0].strip()}` of {words[-1]}", header(member)
        elif named and named.group(1):
            yield f"`{named.group(2)}`", header(item) if " fn " in item.split("(")[0] else item


def wrong_uses():
    for path in sorted(glob.glob("crates/*/specs/**/*.antt", recursive=True)):
        if not private(path) and PRIVATE.search(read(path)):
            yield f"{path} must be believed, and uses a private definition: {PRIVATE.search(read(path)).group(0)}"
    for path in sorted(glob.glob("crates/*/src/**/*.rt", recursive=True)):
        text = read(path)
        names = {name.split(" as ")[-1].strip() for brought in PRIVATE.findall(text) for part in brought for name in part.split(",") if name.strip()}
        for what, words in said(text, public_types(path.split("/")[1])):
            for name in sorted(names & set(re.findall(r"[\w-]+", words))) + sorted(set(re.findall(r"[\w.]*\bspecs\.Private\b[\w.]*", words))):
                yield f"{path}: {what} cites the private definition {name}"
    for cited in re.findall(r"\]\(([^)]*/specs/Private[^)]*)\)", read("docs/PROMISES.md")):
        yield f"docs/PROMISES.md cites {cited}"


def main():
    words = sys.argv[1:]
    if words not in ([], ["--write"], ["--crates"]):
        print(__doc__.strip())
        sys.exit(0 if words in (["-h"], ["--help"]) else 2)
    os.chdir(os.path.join(os.path.dirname(os.path.abspath(__file__)), "..", ".."))
    found = counts()
    if not found:
        sys.exit("there are no definitions: crates/*/specs/")
    if words == ["--crates"]:
        print(f"{'crate':20}{'believed':>9}{'private':>9}")
        for crate, (believed, _, hidden, _) in found.items():
            print(f"{crate:20}{believed:9}{hidden:9}")
        return
    b, files, p, hidden = (sum(of[k] for of in found.values()) for k in range(4))
    text = f"{b:,} lines in {files} files are to be believed; {p:,} more in {hidden} files nobody must"
    page = read(PAGE)
    if page.count(OPENS) != 1 or page.count(CLOSES) != 1:
        sys.exit(f"{PAGE} has no place for the counts: {OPENS} .. {CLOSES}")
    before, rest = page.split(OPENS)
    stands, behind = rest.split(CLOSES)
    wrong = list(wrong_uses())
    if words == ["--write"]:
        with open(PAGE, "w", encoding="utf-8") as f:
            f.write(f"{before}{OPENS}{text}{CLOSES}{behind}")
    elif stands != text:
        wrong.append(f"{PAGE} has other counts than the sources: python3 tests/promises/believed.py --write")
    for line in wrong:
        print(line)
    if wrong:
        sys.exit(f"{len(wrong)} wrong")
    print(f"of the definitions, {text}")


main()

"""Every public function of every library: its agreement, and its wrong answers.

    functions.py           holds each to the rules below, and the table of docs/PROMISES.md to the sources
    functions.py --write   writes that table anew

A public function, or a public method of an impl block, has a contract on its answer and no `requires`, and a theorem FUNCTION_agrees in its crate's proofs.
A method of a trait's impl has the trait's contract, and may have edits. A method goes by its name, and where two functions of a crate would have one name by that of its type before it: number of Kind is kind_number.
A wrong answer is an edit that the prover must refuse, crates/NAME/must-fail/FUNCTION.WHAT.edit, of the code (src/), of a contract (an
`ensures` in src/) or of a definition (specs/), never of a proof: the last two are counted apart from code. A function that decides something
has two, one of them at least an edit of its code; a thin one, that is one for C or of three lines or fewer, has one.
A program has no public function; an edit of one is of the code of a function or method that has a contract, and named after it.
"""
import glob
import os
import re
import sys

PAGE = "docs/PROMISES.md"
OPENS, CLOSES = "<!-- functions: written by tests/functions/functions.py -->", "<!-- end of functions -->"
FUNCTION = re.compile(r"^pub (extern \"C\" )?fn (\w+)((?:.*\n)*?)\{\n((?:.*\n)*?)\}\n", re.M)
METHOD = re.compile(r"^    pub (?:const )?fn (\w+)((?:.*\n)*?)    \{\n((?:.*\n)*?)    \}\n", re.M)
BLOCK = re.compile(r"^impl(?:<[^>]*>)? (?:.* for )?(\w+)", re.M)
OF_TRAIT = re.compile(r"^impl(?:<[^>]*>)? .* for (\w+).*\{\n((?:(?!\}).*\n)*)\}\n", re.M)
DECLARED = re.compile(r"^ *pub ([\w-]+) :", re.M)

# an edit that keeps the name of the function that stood in its place
FORMER = {("id_set", "has"): "contains", ("id_set", "with"): "insert"}

wrong = []


def read(path):
    with open(path, encoding="utf-8") as f:
        return f.read()


def crates():
    for line in read("crates.txt").split("\n"):
        words = line.split("#")[0].split(":")[0].split()
        if words:
            yield words[0]


def in_contract(crate, edit):
    """whether every change that an edit makes below src/ is of a contract, and none of code"""
    file = ""
    for line in edit.split("\n"):
        if line.startswith("file: "):
            file = line[6:].strip()
        elif line.startswith("old: ") and file.startswith("src/"):
            before = read(f"crates/{crate}/{file}").split(line[5:])[0]
            clauses = [found.start() for found in re.finditer(r"\bensures( \w+)? \{", before)]
            if max(clauses, default=-1) <= max(before.rfind("\n{\n"), before.rfind("\n    {\n")):
                return False
    return True


def edits(crate):
    """(function, what, path, kind) of each edit: kind is 'code', where any code is changed, 'contract' or 'specs'"""
    for path in sorted(os.path.join(root, name) for root, _, names in os.walk(f"crates/{crate}/must-fail") for name in names):
        parts = os.path.basename(path).split(".")
        if os.path.islink(path) or len(parts) != 3 or parts[2] != "edit" or os.path.dirname(path) != f"crates/{crate}/must-fail":
            wrong.append(f"{path}: not a file must-fail/FUNCTION.WHAT.edit")
            continue
        folders = {found.split("/")[0] for found in re.findall(r"^file: (\S+)", read(path), re.M)}
        if not folders or not folders <= {"src", "specs"}:
            wrong.append(f"{path}: changes {', '.join(sorted(folders)) or 'nothing'}; an edit is of src/ or specs/")
        kind = "specs" if "src" not in folders else "contract" if in_contract(crate, read(path)) else "code"
        yield FORMER.get((crate, parts[0]), parts[0]), parts[1], path, kind


def theorems(crate):
    """the public theorems of a crate, each with the file where it stands"""
    found = {}
    for path in sorted(glob.glob(f"crates/{crate}/proofs/**/*.antt", recursive=True)):
        for name in DECLARED.findall(read(path)):
            found.setdefault(name, path)
    return found


def snake(name):
    return re.sub(r"(?<!^)(?=[A-Z])", "_", name).lower()


def public(crate):
    """(source, name, shown, for C, header, body) of each public function and method of a crate"""
    found = []
    for source in sorted(glob.glob(f"crates/{crate}/src/**/*.rt", recursive=True)):
        text = read(source)
        for for_c, name, header, body in FUNCTION.findall(text):
            found.append((source, "", name, bool(for_c), header, body))
        methods = list(METHOD.finditer(text))
        for method in methods:
            block = list(BLOCK.finditer(text[: method.start()]))[-1].group(1)
            found.append((source, block, method.group(1), False, method.group(2), method.group(3)))
        top = len(re.findall(r"^pub (?:extern |const |unsafe )*(?:\"C\" )?fn ", text, re.M))
        inner = len(re.findall(r"^ +pub (?:const |unsafe )*fn ", text, re.M))
        if top != len(FUNCTION.findall(text)) or inner != len(methods):
            wrong.append(f"{source}: a public function that this test cannot read")
    names = [name for _, _, name, _, _, _ in found]
    for source, block, name, for_c, header, body in found:
        one = f"{snake(block)}_{name}" if block and names.count(name) > 1 else name
        yield source, one, f"{block}::{name}" if block else name, for_c, header, body


def link(text, path):
    return f"[{text.replace('_', ' ')}](../{path})"


def rows_of(crate):
    """the table's rows for a library"""
    tried, proved = list(edits(crate)), theorems(crate)
    known = set()
    for source, name, shown, for_c, header, body in public(crate):
        known.add(name)
        where, agrees = f"{source}: `{shown}`", f"{name}_agrees"
        thin = for_c or body.count("\n") <= 3
        if "ensures" not in header:
            wrong.append(f"{where} has no contract on its answer")
        if "requires" in header:
            wrong.append(f"{where} has a `requires`")
        if agrees not in proved:
            wrong.append(f"{where} has no theorem {agrees}")
        code = [(what, path) for function, what, path, kind in tried if function == name and kind == "code"]
        specs = [(what, path) for function, what, path, kind in tried if function == name and kind != "code"]
        if len(code) + len(specs) < (1 if thin else 2):
            wrong.append(f"{where} has {len(code) + len(specs)} wrong answers, of {1 if thin else 2}")
        if not code and not thin:
            wrong.append(f"{where} has no edit of its code")
        agreement = f"[`{agrees}`](../{proved.get(agrees, '')})"
        yield f"| {crate} | [`{shown}`](../{source}) | {agreement} | {'; '.join(link(*c) for c in code)} | {'; '.join(link(*c) for c in specs)} |"
    for source in sorted(glob.glob(f"crates/{crate}/src/**/*.rt", recursive=True)):
        for block, inside in OF_TRAIT.findall(read(source)):
            for name in re.findall(r"^    fn (\w+)", inside, re.M):
                code = [(what, path) for function, what, path, kind in tried if function == name and kind == "code"]
                if name not in known and code:
                    known.add(name)
                    yield f"| {crate} | [`{block}::{name}`](../{source}) | the trait's contract | {'; '.join(link(*c) for c in code)} | |"
    for function, what, path, _ in tried:
        if function not in known:
            wrong.append(f"{path}: the crate has no public function {function}")


def without_code(crate):
    """the rows of a crate that has no code: its edits are of definitions, named after what they change"""
    of = {}
    for subject, what, path, _ in edits(crate):
        of.setdefault(subject, []).append(link(what, path))
    for subject, links in of.items():
        yield f"| {crate} | {subject.replace('_', ' ')} | {'; '.join(links)} |"


def rows_of_program(crate):
    """the rows of a program: its edits, by the function whose clause refuses them"""
    text = "\n".join(read(source) for source in sorted(glob.glob(f"crates/{crate}/src/**/*.rt", recursive=True)))
    promising = {name for name, header in re.findall(r"^ *(?:pub\(crate\) )?fn (\w+)((?:.*\n)*?) *\{\n", text, re.M) if "ensures" in header}
    of = {}
    for function, what, path, kind in edits(crate):
        if function not in promising:
            wrong.append(f"{path}: the program has no function {function} with a contract")
        if kind != "code":
            wrong.append(f"{path}: the edit of a program, and not of its code")
        of.setdefault(function, []).append(link(what, path))
    for function, links in of.items():
        yield f"| {crate} | `{function}` | {'; '.join(links)} |"


def main():
    functions, definitions, programs = [], [], []
    for crate in crates():
        sources = glob.glob(f"crates/{crate}/src/**/*.rt", recursive=True)
        if os.path.isfile(f"crates/{crate}/src/main.rt"):
            for source in sources:
                for found in re.findall(r"^pub (?:extern \"C\" )?fn (\w+)", read(source), re.M):
                    wrong.append(f"{source}: `{found}`: a program has no public function")
            programs += rows_of_program(crate)
        elif any(re.search(r"^(?:    )?(?:pub[^\n]* )?fn ", read(source), re.M) for source in sources):
            functions += rows_of(crate)
        else:
            definitions += without_code(crate)
    table = "\n".join(
        ["| Crate | Function | Two answers agree | Wrong code, refused | Wrong definition or contract, refused |", "|---|---|---|---|---|", *functions, ""]
        + ["The crates of theorems, which have no code, have edits of their definitions, of a host or of an engine among them, after which a theorem does not hold:", ""]
        + ["| Crate | Of | Wrong definition, refused |", "|---|---|---|", *definitions, ""]
        + ["The programs have no public function. These are of private ones, whose clauses their loop is proved by:", ""]
        + ["| Program | Function | Wrong code, refused |", "|---|---|---|", *programs]
    )
    page = read(PAGE)
    if page.count(OPENS) != 1 or page.count(CLOSES) != 1:
        sys.exit(f"{PAGE} has no place for the table: {OPENS} .. {CLOSES}")
    before, rest = page.split(OPENS)
    stands, behind = rest.split(CLOSES)
    if "--write" in sys.argv[1:]:
        with open(PAGE, "w", encoding="utf-8") as f:
            f.write(f"{before}{OPENS}\n{table}\n{CLOSES}{behind}")
    elif stands.strip("\n") != table:
        wrong.append(f"{PAGE}: its table of functions is not what the sources give: python3 tests/functions/functions.py --write")
    for line in wrong:
        print(line)
    if wrong:
        sys.exit(f"{len(wrong)} wrong")
    all_edits = [kind for crate in crates() for _, _, _, kind in edits(crate)]
    print(
        f"{len(functions)} public functions agree and have their wrong answers; {all_edits.count('code')} edits of code, "
        f"{all_edits.count('contract')} of contracts, {all_edits.count('specs')} of definitions"
    )


main()

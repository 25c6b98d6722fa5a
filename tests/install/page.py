"""Holds the manual page feohanna(3) to the header: every call, constant and structure of either stands in the other.

    page.py HEADER PAGE OUT   writes to OUT/page.c a program that says where prototypes and values differ, to OUT/example.c the page's example
"""
import re
import sys

# what the header has for its own calls alone
INNER = re.compile(r"feo_raw_\w*|feo_part|feo_room|feo_user_of|feo_accepting_of|feo_told")
LITERAL = re.compile(r"^\.Bd -literal.*\n((?:.*\n)*?)\.Ed$", re.M)
PROTOTYPE = re.compile(r"^\.Ft (.+)\n\.(?:Fn (\w+) (.+)|Fo (\w+)\n((?:\.Fa .+\n)+)\.Fc)$", re.M)
VALUE = r'\b(FEO_\w+) = (\d+|"[^"]*")'


def fields(text):
    """structure -> its fields, each with its type"""
    found = {}
    for name, body in re.findall(r"struct (\w+) \{([^}]*)\}", text):
        lines = [re.match(r"(\S+) (.+)", line.strip()).groups() for line in body.split(";") if line.strip()]
        found[name] = [f"{kind} {field.strip()}" for kind, names in lines for field in names.split(",")]
    return found


def without_comments(text):
    return re.sub(r"/\*.*?\*/", "", text, flags=re.S)


def prototypes(page):
    for kind, short, words, long, lines in PROTOTYPE.findall(page):
        yield kind, short or long, re.findall(r'"([^"]*)"', words or lines)


def wrong(header, page):
    page_code = without_comments(page)
    code = without_comments(header)
    constants = dict(re.findall(r"^#define (FEO_\w+) +(.+)$", code, re.M))
    constants.update((name, "") for body in re.findall(r"enum \w+ \{([^}]*)\}", code) for name in re.findall(r"FEO_\w+", body))
    calls = {name for name in re.findall(r"^static inline [^(]*?(\w+)\(", code, re.M) if not INNER.fullmatch(name)}
    if not constants or not calls:
        yield "the header has no constants or no calls"
    valued, given = {name for name, _ in re.findall(VALUE, page)}, {name for _, name, _ in prototypes(page)}
    described = set(re.findall(r"^\.It Fn (\w+)$", page, re.M))
    for name in sorted(constants):
        # an initializer has no value that could be printed
        if name not in valued and not (constants[name].startswith("{") and re.search(rf"\b{name}\b", page)):
            yield f"the page does not give {name} with its value"
    for name in sorted(calls):
        if name not in given:
            yield f"the page has no prototype of {name}"
        if name not in described:
            yield f"the page does not say what {name} does"
    for name in sorted(set(re.findall(r"\b(?:feo|FEO)_\w+", page))):
        if not re.search(rf"\b{name}\b", code):
            yield f"the page has {name}, and the header has not"
    ours, theirs = fields(code), fields(page_code)
    for name in sorted(ours.keys() | theirs.keys()):
        if ours.get(name) != theirs.get(name):
            yield f"struct {name} is {ours.get(name)} in the header, {theirs.get(name)} on the page"


def program(page):
    """redeclares each call, so that the compiler compares the types; compares each value"""
    yield "#include <stdio.h>\n#include <string.h>\n#include <feohanna.h>"
    for kind, name, words in prototypes(page):
        yield f"static {kind} {name}({', '.join(words)});"
    yield "int main(void)\n{\n    int wrong = 0;"
    for name, value in re.findall(VALUE, page):
        same = f"strcmp({name}, {value}) == 0" if value.startswith('"') else f"{name} == {value}"
        yield f'    if (!({same}))\n        wrong = printf("the page gives another value of {name}\\n");'
    yield "    return wrong != 0;\n}"


def example(page):
    source = [body for body in LITERAL.findall(page) if "int main" in body]
    if len(source) != 1:
        sys.exit(f"the page has {len(source)} examples")
    return source[0].replace("\\e", "\\")


def main():
    if len(sys.argv) != 4:
        sys.exit(__doc__.strip())
    header, page = (open(path, encoding="utf-8").read() for path in sys.argv[1:3])
    found = list(wrong(header, page))
    if found:
        sys.exit("\n".join(found))
    for name, text in ("page.c", "\n".join(program(page)) + "\n"), ("example.c", example(page)):
        with open(f"{sys.argv[3]}/{name}", "w", encoding="utf-8") as f:
            f.write(text)


main()

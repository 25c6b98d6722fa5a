"""Holds the citations of README.md and of every page below docs/ to the files that they cite."""
import glob
import os
import re
import sys

PAGES = ["README.md", *sorted(glob.glob("docs/**/*.md", recursive=True))]
CITATION = re.compile(r"\[(`?)([^\]`]+)\1\]\(([^)#\s]+)\)")
# what may stand before the names that a line declares, in antt
HEAD = re.compile(r"^\s*(?:(?:unfoldable|abbrev|opaque|infix\w* \d+)\s+)*(?:pub\s+)?(?:(record|data|ruleset)\s+)?(?:abbrev\s+|unfoldable\s+)?")
RATTLE = r"^\s*(?:#\[.*\]\s*)?(?:pub(?:\(\w+\))?\s+)?(?:extern \"C\"\s+)?(?:fn|struct|enum|const|type|mod)\s+{}\b|^\s*(?:pub\s+)?{}\s*:|^\s*{}\s*[,({{]"


def declared_antt(text):
    """the names that an antt file declares: definitions, theorems, records and their fields, constructors"""
    names = set()
    for line in text.split("\n"):
        line = re.sub(r"\s*--.*", "", line)
        words = line.split()
        if not words or words[0] in ("use", "let", "module", "open", "where", "→", "unfolding"):
            continue
        head = HEAD.match(line)
        rest = line[head.end() :]
        parts = re.match(r"((?:[^\s:=(){}]+\s*)+?)\s*(:|=|\(|\{|$)", rest)
        if not parts:
            continue
        if parts.group(2) == ":" or (head.group(1) and parts.group(2) in ("(", "{", "=", "")):
            names.update(parts.group(1).split() if parts.group(2) == ":" else parts.group(1).split()[:1])
    return names


def stands(name, file):
    with open(file, encoding="utf-8") as f:
        text = f.read()
    if file.endswith(".antt"):
        return name in declared_antt(text)
    if file.endswith(".rt"):
        code = re.sub(r"//.*", "", text)
        # a method by its name alone
        escaped = re.escape(name.split("::")[-1])
        return re.search(RATTLE.format(escaped, escaped, escaped), code, re.M) is not None
    if file.endswith((".h", ".c")):
        text = re.sub(r"/\*.*?\*/|//[^\n]*", "", text, flags=re.S)
    return re.search(r"(?<![\w·-])" + re.escape(name) + r"(?![\w·-])", text) is not None


def elsewhere(code, name, file):
    """where else it stands, for the message: the files of crates/ that declare the name, or those that have the missing file's name"""
    found = sorted(glob.glob("crates/**/*.antt", recursive=True) + glob.glob("crates/**/*.rt", recursive=True))
    found = [f for f in found if stands(name, f)] if code else [f for f in found if os.path.basename(f) == os.path.basename(file)]
    return f"; it stands in {', '.join(found)}" if 0 < len(found) < 4 else ""


cited, wrong = 0, []
for page in PAGES:
    with open(page, encoding="utf-8") as f:
        text = f.read()
    for code, name, path in CITATION.findall(text):
        if "://" in path:
            continue
        file = os.path.normpath(os.path.join(os.path.dirname(page), path))
        cited += 1
        if not os.path.exists(file):
            wrong.append(f"{page}: {path} is not there{elsewhere(code, name, file)}")
        elif code and os.path.isfile(file) and not stands(name, file):
            wrong.append(f"{page}: {path} declares no `{name}`{elsewhere(code, name, file)}")
if not cited:
    wrong.append("nothing is cited")
for line in wrong:
    print(line)
if wrong:
    sys.exit(f"{cited} citations, {len(wrong)} of them wrong")
print(f"{cited} citations on {len(PAGES)} pages stand where they are cited")

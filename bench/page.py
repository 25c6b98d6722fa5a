"""What of docs/BENCH.md belongs to this kind of machine: its places in the page, and its pictures."""
import os
import platform
import sys

MACHINE = {"x86_64": "x86-64", "aarch64": "Arm"}.get(platform.machine(), platform.machine())
END = "<!-- end -->\n"


def picture(name):
    return f"{name}.svg" if MACHINE == "x86-64" else f"{name}-{MACHINE.lower()}.svg"


def store(docs, what, text, name, drawn):
    """Puts a text at this machine's place for it in the page, and a picture beside the page."""
    path, begin = os.path.join(docs, "BENCH.md"), f"<!-- {what} on {MACHINE} -->\n"
    page = open(path).read()
    if page.count(begin) != 1:
        sys.exit(f"{path} has no place for the table: {begin.strip()} .. {END.strip()}")
    before, rest = page.split(begin)
    after = rest.split(END, 1)[1]
    with open(path, "w") as f:
        f.write(before + begin + text + END + after)
    with open(os.path.join(docs, picture(name)), "w") as f:
        f.write(drawn)

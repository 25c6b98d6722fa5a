#!/usr/bin/env python3
"""Brings the repository's own definitions and lemmas to snake case, as the kit spells its own.

usage: python3 tools/spell.py [--names]        at the top of the repository, once, after port.py; --names only lists old and new names

A name is respelled where a file declares it or imports it from a crate of this repository; a record's field also behind a dot anywhere.
Names that begin with a capital stay: facts and types, and the papers' own names (BAD-CONTENTS, AE-1), whose dash keeps them apart from the
constants of src/. So do functions, exported names, strings and what the kit makes. Names that would fall together get another word: OTHER.
"""
import os
import re
import sys

NAME = r"[^\s(){}\[\]:;,.@\"`⌜⌝|]+"
TOKEN = re.compile(r"(?<![\w'◌-])[A-Za-z_][\w'₀-₉-]*")
HEAD = re.compile(r"^\s*(?:(?:abbrev|unfoldable|pub|record|data)\s+)*(" + NAME + r")\s*((?:[({].*?[)}]\s*)*):(?:\s|$)")
RULESET = re.compile(r"^\s*(?:pub\s+)?ruleset\s+(" + NAME + r")\s*=")

# Lemmas that would fall together with the definition that they speak of, or with a name of the kit.
OTHER = {
    n: n.replace("-", "_") + "_so"
    for n in """top-known top-order local-refusal receive-refusal heard-right given-right first_by kind-as past-of unread-of roles-said fields-of
    sheet-of unused-zero user-good top-good items-ok application-at version-at class-at context-good context-id roles-size transfer-name-ok
    role-body count-said was-proposed only-class bit-or""".split()
}


def own_crates():
    return sorted(c for c in os.listdir("crates") if os.path.isdir("crates/" + c))


def files(*ends):
    for folder, dirs, names in os.walk("crates"):
        dirs[:] = sorted(d for d in dirs if d != "out")
        for n in sorted(names):
            if n.endswith(ends):
                yield os.path.join(folder, n)


def snake(name):
    if name in OTHER:
        return OTHER[name]
    if not name[0].islower() or (not re.search(r"[A-Z-]", name)):
        return name
    s = re.sub(r"([a-z])(\d+H)", r"\1_\2", name)
    s = re.sub(r"([a-z0-9])([A-Z])(?![\d]*H\b)", lambda m: m.group(1) + "_" + m.group(2).lower(), s) if not re.search(r"\d+H", s) else s
    s = re.sub(r"[A-Z]", lambda m: m.group(0).lower(), s)
    return s.replace("-", "_")


def declared(path):
    """The names a file declares: at the top, in module blocks, fields and constructors."""
    out, field = set(), set()
    inside = None
    for line in open(path, encoding="utf-8"):
        if line.lstrip().startswith("--"):
            continue
        text = line.split(" -- ")[0].rstrip("\n")
        indent = len(text) - len(text.lstrip())
        if not text.strip():
            continue
        if inside is not None and indent <= inside:
            inside = None
        m = RULESET.match(text)
        if m:
            out.add(m.group(1))
            continue
        m = HEAD.match(text)
        if m and m.group(1) not in ("module", "use", "let", "in", "where", "unfolding"):
            name = m.group(1)
            out.add(name)
            if inside is not None:
                field.add(name)
            if re.match(r"^\s*(?:pub\s+)*(?:record|data)\s", text):
                inside = indent
    return out, field


def main():
    crates = set(own_crates())
    module = {}
    fields = set()
    for p in files(".antt"):
        d, f = declared(p)
        fields |= f
        parts = p.split("/")
        name = "Rattle." + parts[1] + "." + parts[2] + "." + ".".join(parts[3:])[: -len(".antt")]
        module[name] = d
    new = {n: snake(n) for d in module.values() for n in d}
    new = {a: b for a, b in new.items() if a != b}
    fieldnew = {a: snake(a) for a in fields if snake(a) != a}
    if "--names" in sys.argv:
        for a, b in sorted(new.items()):
            print(a, b, "field" if a in fieldnew else "")
        return 0
    changed = 0

    def names_of(p, text):
        """What is respelled in this file: its names, those behind a dot, and the modules of ours behind whose name a declared name stands."""
        parts = p.split("/")
        key = "Rattle." + parts[1] + "." + parts[2] + "." + ".".join(parts[3:])[: -len(".antt")] if p.endswith(".antt") else None
        here, elsewhere, modules = set(module.get(key, ())), set(), {"specs", "proofs"}
        for line in text.splitlines():
            m = re.match(r"^\s*(?:pub )?(?:ghost )?use ([\w.'·-]+?)\.\{([^}]*)\}", line)
            if m:
                ours = m.group(1) in module
                for w in m.group(2).split(","):
                    (here if ours else elsewhere).add(w.split(" as ")[0].strip())
            m = re.match(r"^\s*(?:pub )?(?:ghost )?use (Rattle\.([a-z0-9_]+)\.(?:specs|proofs)\.[\w.'-]+)(?: as ([\w'-]+))?;?\s*$", line)
            if m and m.group(2) in crates and m.group(1) in module:
                modules.add(m.group(3) or m.group(1).split(".")[-1])
        mapping = {a: new[a] for a in here if a in new and a not in elsewhere}
        if p.endswith(".antt"):
            mapping |= {a: new[a] for a in fields if a in new and a not in elsewhere and a not in mapping}
        taken = {}
        for a in here:
            taken.setdefault(new.get(a, a), set()).add(a)
        for b, s in taken.items():
            if len(s) > 1:
                print(f"falls together: {p}: {sorted(s)} -> {b}")
        for a, b in mapping.items():
            if b in elsewhere:
                print(f"meets an import: {p}: {a} -> {b}")
        return mapping, modules

    def respelled(text, mapping, modules, anywhere=False):
        """Strings stay; in a comment only what cannot be English changes."""

        def word(m, piece):
            w = m.group(0)
            if m.start() and piece[m.start() - 1] == ".":
                whose = re.search(r"([\w'-]+)\.$", piece[: m.start()])
                return new.get(w, w) if whose and whose.group(1) in modules else fieldnew.get(w, w)
            if anywhere and re.search(r"[a-z0-9][A-Z]", w):
                return new.get(w, w)
            return mapping.get(w, w)

        def comment(m, piece):
            w = m.group(0)
            if re.search(r"[a-z][A-Z]", w):
                return new.get(w, w)
            return mapping.get(w, w) if m.start() and piece[m.start() - 1] == "`" else w

        out = []
        for i, piece in enumerate(re.split(r'((?:(?<=\s)|^)(?:--|//)[^\n]*|"(?:[^"\\\n]|\\.)*")', text, flags=re.M)):
            if i % 2 and piece.startswith('"'):
                out.append(piece)
            else:
                out.append(TOKEN.sub(lambda m: (comment if i % 2 else word)(m, piece), piece))
        return "".join(out)

    known = {p: names_of(p, open(p, encoding="utf-8").read()) for p in files(".antt", ".rt")}
    for p in files(".antt", ".rt", ".edit"):
        text = open(p, encoding="utf-8").read()
        if p.endswith(".edit"):
            result, of = [], ({}, set())
            for line in text.splitlines(keepends=True):
                if line.startswith("file: "):
                    of = known.get(os.path.normpath(os.path.join(os.path.dirname(p), "..", line[6:].strip())), of)
                if line.startswith(("old: ", "new: ")):
                    line = line[:5] + respelled(line[5:], *of, anywhere=True)
                result.append(line)
            result = "".join(result)
        else:
            result = respelled(text, *known[p])
        if result != text:
            open(p, "w", encoding="utf-8").write(result)
            changed += 1
    print(f"spell: {changed} files changed, {len(new)} names")
    return 0


if __name__ == "__main__":
    raise SystemExit(main())

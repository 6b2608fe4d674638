#!/usr/bin/env python3
"""Respells this repository's own names: definitions, lemmas, fields and constructors in snake case, statements in camel case.

Run once at the top of the repository, after the toolchain's own script. Names of the library, names that a check generates, functions of
src/, strings and the programs' texts stay as they are. It prints names that would fall together, and then changes nothing.
"""
import os
import re
import subprocess
import sys

KIT = os.path.join(os.path.dirname(subprocess.run(["rt", "doc"], capture_output=True, text=True, check=True).stdout.strip()), "rattle")
TOKEN = re.compile(r"[^\s.,;:(){}\[\]λ|`\"]+")
DEFINED = re.compile(r"^\s*(?:(?:pub|abbrev|unfoldable|data|record|ruleset|ghost) +)*([^\s:(){};,\[\]λ|.]+)(?: +[({][^)}]*[)}])* :(?: |$)")
# Fields and constructors that would fall together with a definition; and a word that is a tactic's.
APART = {"in-register": "from_register", "round-ended": "has_ended_round", "slots-in": "slots_inside", "is_white": "white_there", "first_of": "first_in"}


def texts(root, ends):
    for folder, dirs, files in os.walk(root):
        dirs[:] = sorted(d for d in dirs if d not in ("out", ".git"))
        for f in sorted(files):
            if f.endswith(ends):
                yield os.path.join(folder, f)


def read(p):
    with open(p, encoding="utf-8") as f:
        return f.read()


def library():
    names = set()
    for part in ("std", "core", "logic", "antt", "io", "libc", "os"):
        for p in texts(os.path.join(KIT, part), (".antt", ".md", ".rt")):
            with open(p, encoding="utf-8", errors="replace") as f:
                names.update(t for t in TOKEN.findall(f.read()) if "-" in t or re.search("[a-z][A-Z]", t))
    return names


def answer_file(p):
    parts = p.split(os.sep)
    return "proofs" in parts and len(parts) > parts.index("proofs") + 2


def defined():
    names = {}
    for p in texts("crates", (".antt",)):
        for line in read(p).split("\n"):
            m = DEFINED.match(line)
            if m and not (answer_file(p) and ("goal." in line or "need." in line)):
                names.setdefault(m.group(1), set()).add(p)
    return names


def respelled(name):
    if name in APART:
        return APART[name]
    if re.match(r"^[A-Z]", name) and "-" in name:
        words = name.split("-")
        if all(re.match(r"^[A-Za-z]+$", w) for w in words):
            return "".join(w[0].upper() + w[1:] for w in words)
        return name
    if not re.match(r"^[^\W\d_]", name) or name[0].isupper():
        return name
    name = re.sub(r"(?<=[a-z0-9])([A-Z])(?=[a-z])", lambda m: "_" + m.group(1).lower(), name)
    return re.sub(r"(?<=[\w'])-(?=\w)", "_", name)


def changes():
    own, std = defined(), library()
    turned = {}
    for n in own:
        if n in std:
            continue
        m = respelled(n)
        if m != n:
            turned[n] = m
    # A lemma that would have its function's name ends in _lem.
    for m, ns in together(own, turned).items():
        if any(re.search("[A-Z]", n) for n in ns):
            turned.update((n, m + "_lem") for n in ns if not re.search("[A-Z]", n))
    return own, turned


def together(own, turned):
    """Names that are spelled alike afterwards."""
    by = {}
    for n in own:
        by.setdefault(turned.get(n, n), set()).add(n)
    return {m: ns for m, ns in by.items() if len(ns) > 1}


def respell(text, turned):
    return TOKEN.sub(lambda m: turned.get(m.group(0), m.group(0)), text)


def respell_source(text, turned):
    """A source file: not its strings."""
    out, at = [], 0
    for m in re.finditer(r'b?"(?:[^"\\\n]|\\.)*"', text):
        out += [respell(text[at:m.start()], turned), m.group(0)]
        at = m.end()
    return "".join(out + [respell(text[at:], turned)])


def respell_page(text, turned):
    return re.sub(r"`[^`\n]+`", lambda m: respell(m.group(0), turned), text)


def main():
    if os.path.exists("docs/PORT.md"):
        print("respelled already: a second run would take new names for old ones")
        return 1
    own, turned = changes()
    clash = together(own, turned)
    for m, ns in sorted(clash.items()):
        print(f"together: {m}: " + "; ".join(f"{n} ({', '.join(sorted(own[n]))})" for n in sorted(ns)))
    if "--list" in sys.argv:
        for n, m in sorted(turned.items()):
            print(f"{n} -> {m}")
    if clash and "--force" not in sys.argv or "--list" in sys.argv:
        return 1
    n = 0
    for ends, how in (((".antt", ".edit"), respell), ((".rt",), respell_source), ((".md",), respell_page)):
        for root in ("crates", "docs", "tests", "."):
            for p in texts(root, ends) if root != "." else ["README.md"] * (ends == (".md",)):
                old = read(p)
                new = how(old, turned)
                if new != old:
                    n += 1
                    with open(p, "w", encoding="utf-8") as f:
                        f.write(new)
    print(f"{len(turned)} names respelled in {n} files")
    return 0


sys.exit(main())

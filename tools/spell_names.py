#!/usr/bin/env python3
"""Spells the repository's own definitions and lemmas in snake case, and its own facts in upper camel case.

usage: python3 tools/spell_names.py        at the top of the repository, once, after the toolchain's own port script

An own name is one that a file of specs/ or proofs/ declares with a dash in it. What the toolchain makes (goals, steps, invariants) and what its
library declares keeps its spelling. Comments, strings and the code of functions are left as they are.
"""
import os
import re
import sys

STOP = r"\s(){}\[\];,.«»⌜⌝\""
NAME = rf"[^{STOP}:]+"
WORD = rf"(?:pub|abbrev|unfoldable|data|record)"
GROUP = r"[({](?:[^(){}]|[({][^(){}]*[)}])*[)}]"
DECLARED = re.compile(rf"^\s*(?:{WORD} )*(?P<names>{NAME}(?: {NAME})*)(?: {GROUP})* :(?: |$)")
MADE = re.compile(rf"(?<![^{STOP}])(?:goal|given)\.({NAME})")
GIVEN = re.compile(r"^use Rattle\.\w+\.proofs\.\S*\.(?:Goals|Given)\.\{(.*)\}")
RENAMED = re.compile(rf" as ({NAME})(?=[,}}])")

# where the plain rule would give a name that something else has
OWN = {
    "bit-and": "bit_of_and",
    "bit-or": "bit_of_or",
}


def files():
    for folder, dirs, names in os.walk("crates"):
        dirs[:] = sorted(d for d in dirs if d != "out")
        for name in sorted(names):
            if name.endswith((".antt", ".rt")):
                yield os.path.join(folder, name)


def declared(paths):
    """The names with a dash that files of specs/ and proofs/ declare, or import under a name of their own, but for those that the toolchain makes."""
    found, made = {}, set()
    for path in paths:
        for line in open(path, encoding="utf-8"):
            if line.lstrip().startswith(("--", "//")):
                continue
            made.update(MADE.findall(line))
            m = GIVEN.match(line)
            if m:
                made.update(re.split(r",\s*| as ", m[1]))
            names = RENAMED.findall(line) if line.startswith(("use ", "ghost use ")) else []
            m = DECLARED.match(line)
            if m and path.endswith(".antt") and not re.search(r"[|↦∙λ=→∷]", m["names"]):
                names += m["names"].split()
            for name in names:
                if re.search(r"\w-\w", name):
                    found.setdefault(name, path)
    return {name: path for name, path in found.items() if name not in made}


def spelled(name):
    if name in OWN:
        return OWN[name]
    name = name.replace("getD", "get_or")
    if name[0].isupper():
        return "".join(part[0].upper() + part[1:] for part in name.split("-"))
    return name.replace("-", "_")


def turned(line, ending, names):
    """A line with its own names spelled anew, but for its comment and its strings."""
    at = line.find("--" if ending == ".antt" else "//")
    while ending == ".antt" and at > 0 and not line[at - 1].isspace():
        at = line.find("--", at + 2)
    code, comment = (line, "") if at < 0 else (line[:at], line[at:])
    parts = re.split(r'("(?:[^"\\]|\\.)*")', code) if ending == ".rt" else [code]
    for i in range(0, len(parts), 2):
        parts[i] = names.sub(lambda m: spelled(m[0]), parts[i])
    return "".join(parts) + comment


def main():
    paths = list(files())
    found = declared(paths)
    longest = sorted(found, key=len, reverse=True)
    names = re.compile(rf"(?<![^{STOP}])(?:{'|'.join(map(re.escape, longest))})(?![^{STOP}])")
    for path in paths:
        old = open(path, encoding="utf-8").read()
        ending = os.path.splitext(path)[1]
        new = "\n".join(turned(line, ending, names) for line in old.split("\n"))
        if new != old:
            open(path, "w", encoding="utf-8").write(new)
    if "--list" in sys.argv:
        for name in sorted(found):
            print(f"{name} {spelled(name)} {found[name]}")
    print(f"spelled: {len(found)} names")


if __name__ == "__main__":
    main()

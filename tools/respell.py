#!/usr/bin/env python3
"""Brings the repository's own definitions and lemmas to the spelling of the Rattle that is installed: words in snake case.

    tools/respell.py [--list]

Run once, at the top, on what `port.py` wrote. It goes over the .antt and .rt files, the must-fail edits and the pages, and changes
only names that a file of specs/ or proofs/ declares, each to the same name in snake case; functions, types, exported names, strings
and outputs stay. Two names that would fall together end it before anything is written.
"""
import glob
import re
import sys

# a name of antt: letters, digits, and what joins them
NAME = r"[A-Za-z_][A-Za-z0-9_'₀-₉]*(?:-[A-Za-z0-9_'₀-₉]+)*"
DECLARED = re.compile(r"^ *(?:abbrev |unfoldable )*(?:pub )?(?:abbrev |unfoldable |data |record )?(" + NAME + r") *(?:\{[^}]*\} *)?:(?!:)", re.M)
# words of lists that the library renamed, kept in step in our lemmas' names
ALIAS = {"getD": "get_or"}
# what would fall together with a definition's new name: a lemma, and fields of records of facts, which give way
GIVE_WAY = {"shut_out": "shuts_out", "tie_down": "tied_down", "tie_up": "tied_up", "down_to": "down_kept", "first_by": "first_out-by"}


def snake(part):
    if part in ALIAS:
        return ALIAS[part]
    if not part[:1].islower():
        return part
    return re.sub(r"(?<=[a-z0-9])([A-Z])", lambda m: "_" + m.group(1).lower(), part)


def respelt(name):
    return "-".join(snake(p) for p in name.split("-"))


def main():
    antt = sorted(glob.glob("crates/*/specs/**/*.antt", recursive=True) + glob.glob("crates/*/proofs/**/*.antt", recursive=True))
    sources = sorted(glob.glob("crates/*/src/**/*.rt", recursive=True))
    edits = sorted(glob.glob("crates/*/must-fail/*.edit"))
    pages = sorted(glob.glob("docs/*.md") + ["README.md"])
    declared = set()
    for path in antt:
        declared |= set(DECLARED.findall(open(path).read()))
    change = {n: respelt(n) for n in declared if respelt(n) != n}
    change.update({o: n for o, n in GIVE_WAY.items() if o in declared})
    fallen = [(o, n) for o, n in change.items() if n in declared and n not in GIVE_WAY]
    if len(set(change.values())) != len(change) or fallen:
        sys.exit("names that fall together: %s" % fallen)
    if "--list" in sys.argv:
        for o, n in sorted(change.items()):
            print(o, n)
        return
    # in a clause of a source only ghost lines name definitions; a source's own names are in snake case already
    word = re.compile(r"(?<![A-Za-z0-9_'-])(" + "|".join(sorted(map(re.escape, change), key=len, reverse=True)) + r")(?![A-Za-z0-9_'-])")
    for path in antt + sources + edits + pages:
        old = open(path).read()
        new = word.sub(lambda m: change[m.group(1)], old)
        if new != old:
            open(path, "w").write(new)


main()

#!/usr/bin/env python3
"""samples.py [STDIN STDOUT]: what the program of crates/samples must write, worked out by the model of document 01.

Reads the cases of crates/samples/stdin, lets model.py answer each, and compares what must be written then with crates/samples/stdout, line by
line. The formats are those that the comments of crates/samples/src describe; nothing is taken from the stored output. Ends with status 0 where
every line agrees, with 1 at a difference, and with 2 where a case cannot be read.
"""

import itertools
import pathlib
import re
import sys

sys.dont_write_bytecode = True  # a check leaves no files behind
import model

HIGHEST = 2**32 - 1
PATTERN = 90009  # what the lists of a result or of a renumbering hold first
# The lengths of the ten lent lists where a case names none, which are also the most that a case is lent: room for any problem that is taken.
N, M, E = (model.FULL[figure] for figure in ("items", "options", "entries"))
WHOLE = [N + 2 + E + M] * 4 + [N + 1] + [N, M, M, E, E]
RESULTS = "kept", "ends", "numbers", "items", "colours"
REDUCED = "primaries", "secondaries", "options", "entries", "rounds", "settled"
INFEASIBLE = "item", "cause", "round"
REFUSED = ("place",)
SHOWN = 3  # differing lines that are printed: behind a missing line all others differ


class Unreadable(Exception):
    """A case that is in none of the formats."""


# ---- The fields of a case ----


def number(word):
    if not re.fullmatch("[0-9]+", word) or int(word) > HIGHEST:
        raise Unreadable(f"not a 32-bit number: {word}")
    return int(word)


def numbers(text):
    return [number(word) for word in text.replace(",", " ").split()]


def exactly(count, text):
    found = numbers(text)
    if len(found) != count:
        raise Unreadable(f"not {count} numbers: {text}")
    return found


# A long list's rule: the number at place k, where the case gives n.
RULES = {
    "up": lambda k, n: k,
    "count": lambda k, n: k + 1,
    "same": lambda k, n: n,
    "fours": lambda k, n: k // 4 % 256 + 256 * (k % 4),
    "tints": lambda k, n: n if k % 4 else 0,
    "ends": lambda k, n: n if k + 1 >= 4096 else 4 * (k + 1),
}


def listed(text):
    """A list, from its numbers or by a rule, in which n may be left out."""
    word, *given = text.split() or [""]
    if word not in RULES:
        return numbers(text)
    length, n = exactly(2, " ".join(given + ["0"] * (len(given) == 1)))
    return [RULES[word](k, n) for k in range(length)]


def options(text):
    """The items, colours and ends of options as document 01 writes them."""
    if not re.fullmatch(r"\[[^][]*\](,\[[^][]*\])*", text):
        raise Unreadable(f"not options: {text}")
    items, colours, ends = [], [], []
    for option in re.findall(r"\[([^]]*)\]", text):
        for entry in option.split():
            item, colon, colour = entry.partition(":")
            items.append(number(item))
            colours.append(number(colour) if colon else 0)
        ends.append(len(items))
    return items, colours, ends


def lent(text):
    return [min(pair) for pair in zip(exactly(10, text), WHOLE)]


# ---- What must be written ----


def shown(name, values):
    """A list behind its name; one of more than 13 numbers is cut short, with a sum that depends on all of them and on their order."""
    if not values:
        return ""
    words = [str(value) for value in values]
    if len(values) > 13:
        total = 0
        for value in values:
            total = (total * 31 + value) % 1000003
        words[12:-1] = [".."]
        words.append(f"({len(values)} numbers, sum {total})")
    return " ".join([name] + words)


def named(names, values):
    return ", ".join(f"{name} {value}" for name, value in zip(names, values))


def verdict(lists, fronts):
    """`ok`, where each list holds the pattern behind its front. It speaks of the working lists too, which the model has not: what those hold
    afterwards is a rule without exception."""
    return "; ok" if all(set(held[front:]) <= {PATTERN} for held, front in zip(lists, fronts)) else ""


def called(counts, items, colours, ends, lengths):
    """The call over lists."""
    results = [[PATTERN] * length for length in lengths[5:]]
    answer, values, results = model.reduce(*counts, items, colours, ends, lengths[:5], results)
    fronts = [0] * 5
    if answer == 0:
        kept, m, e = values[0] + values[1], values[2], values[3]
        fronts = [kept, m, m, e, e]
        said = "0 reduced: " + named(REDUCED, values)
    elif answer == 1:
        said = "1 infeasible: " + named(INFEASIBLE, values)
    else:
        said = f"{answer} refused: " + named(REFUSED, values)
    lists = [shown(f"; {name}", held[:front]) for name, held, front in zip(RESULTS, results, fronts)]
    return f" -> {said}" + "".join(lists) + verdict(results, fronts)


def renumbered(primaries, kept, items, length):
    """The two renumberings."""
    said, lists, fronts = [], [], []
    for name, crate in ("compact", False), ("crate's", True):
        answer, place, out = model.renumber(kept, primaries, items, [PATTERN] * length, crate)
        front = 0 if answer else len(items)
        said.append(f"{name} {answer} place {place}" + shown(", items", out[:front]))
        lists.append(out)
        fronts.append(front)
    return " -> " + "; ".join(said) + verdict(lists, fronts)


def outcome(case):
    """What stands behind a case."""
    _, *fields = (field.strip() for field in case.split("|"))
    if len(fields) == 4 and fields[0].startswith("renumber "):
        (primaries,), (length,) = exactly(1, fields[0].removeprefix("renumber ")), exactly(1, fields[3])
        return renumbered(primaries, numbers(fields[1]), numbers(fields[2]), length)
    if len(fields) == 2:
        return called(exactly(3, fields[0]), *options(fields[1]), WHOLE)
    if len(fields) in (4, 5):
        lengths = lent(fields[4]) if len(fields) == 5 else WHOLE
        return called(exactly(3, fields[0]), *map(listed, fields[1:4]), lengths)
    raise Unreadable(f"{len(fields)} fields behind the name")


def due(line):
    """The line that must be written for a line of the input."""
    if not line.endswith("\n"):
        raise Unreadable("no newline at its end")
    case = line.removesuffix("\n")
    return line if case.startswith("#") else case + outcome(case) + "\n"


# ---- The comparison ----


def lines(path):
    """The lines of a file, each with its newline, so that a missing one is seen."""
    with open(path, encoding="ascii", errors="backslashreplace", newline="") as file:
        return re.findall("[^\n]*\n|[^\n]+", file.read())


def give_up(why):
    print(f"oracle/samples.py: {why}", file=sys.stderr)
    sys.exit(2)


def all_due(path):
    found = []
    for line in lines(path):
        try:
            found.append(due(line))
        except Unreadable as why:
            give_up(f"{path}, line {len(found) + 1}: {why}")
    if not found:
        give_up(f"{path}: no case")  # an agreement about nothing would say nothing
    return found


def report(at, case, want, stored):
    print(f"line {at}")
    for what, line in ("case", case), ("expected by the model", want), ("stored", stored):
        print(f"  {what}: " + ("no such line" if line is None else line.removesuffix("\n")))
    if stored is not None and not stored.endswith("\n"):
        print("  the stored line has no newline")


def main(given, stored):
    sides = list(itertools.zip_longest(lines(given), all_due(given), lines(stored)))
    wrong = [(at, *three) for at, three in enumerate(sides, 1) if three[1] != three[2]]
    for difference in wrong[:SHOWN]:
        report(*difference)
    print(f"{len(wrong)} of {len(sides)} lines differ" if wrong else f"{len(sides)} lines agree")
    return 1 if wrong else 0


if __name__ == "__main__":
    here = pathlib.Path(__file__).resolve().parent.parent / "crates" / "samples"
    paths = sys.argv[1:] or [here / "stdin", here / "stdout"]
    if len(paths) != 2:
        give_up("two paths or none")
    sys.exit(main(*paths))

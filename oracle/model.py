"""A plain model of document 01, written from the paper and sharing nothing with the Rattle sources.

It answers as the call over lists does, from Python lists: `reduce(np, ns, cap, items, colours, ends, room, results)` gives
(number, values, results), where room is five lengths, results is five lists, and values are those of the paper's table.
"""

FULL = {"items": 1024, "options": 4096, "entries": 16384, "colour": 255}


def refusal(fig, np, ns, items, colours, ends, room, results, ragged=False):
    """The table of checks: None, or (number, place)."""
    n, m, e = np + ns, len(ends), len(items)
    if np == 0:
        return 10, 0
    if n > fig["items"]:
        return 11, 0
    if m == 0:
        return 12, 0
    if m > fig["options"]:
        return 13, 0
    if ragged or e != len(colours):
        return 14, 0
    if e > fig["entries"]:
        return 15, 0
    before = 0
    for k, end in enumerate(ends):
        if end < before or end > e:
            return 16, k
        before = end
    if ends[-1] != e:
        return 16, m - 1
    need = n + 2 + e + m
    if any(length < need for length in room[:4]) or room[4] < n + 1:
        return 17, 0
    if any(length < want for length, want in zip(map(len, results), (n, m, m, e, e))):
        return 18, 0
    begin = 0
    for end in ends:
        seen = set()
        for i in range(begin, end):
            if items[i] >= n:
                return 19, i
            if colours[i] > fig["colour"]:
                return 20, i
            if items[i] < np and colours[i] > 0:
                return 21, i
            if items[i] in seen:
                return 22, i
            seen.add(items[i])
        begin = end
    return None


class Infeasible(Exception):
    pass


def uses(state, c):
    return [k for k in sorted(state) if any(i == c for i, _ in state[k])]


def holders(state):
    """What `uses` gives, for every item in a live option at once: a search for each item takes too long at the full figures."""
    held = {}
    for k in sorted(state):
        for i, _ in state[k]:
            held.setdefault(i, []).append(k)
    return held


def colour_of(option, c):
    for i, x in option:
        if i == c:
            return x
    return None


def cyclic(option, c):
    """The other entries, from the one after c round to the one before it."""
    at = [i for i, _ in option].index(c)
    return option[at + 1:] + option[:at]


def the_p(np, state, held, c):
    best = None
    for p in range(np):
        if p != c and p in held and all(colour_of(state[k], c) == 0 for k in held[p]):
            top = held[p][-1]
            met = [i for i, _ in cyclic(state[top], c)].index(p)
            if best is None or (top, met) > best[0]:
                best = ((top, met), p)
    return None if best is None else best[1]


def is_rival(v, o, c):
    for i, x in v:
        y = colour_of(o, i)
        if (i == c and x == 0) or (i != c and y is not None and not (x == y and x > 0)):
            return True
    return False


def is_blocked(np, state, held, o, c):
    own = {i for i, _ in o}
    return any(q not in own and q in held and all(is_rival(state[v], o, c) for v in held[q]) for q in range(np))


def step(np, state, held, c):
    """One item's step, from a state and its holders; says whether something was removed."""
    p = the_p(np, state, held, c)
    if p is not None:
        for k in held[c]:
            if colour_of(state[k], p) is not None:
                state[k] = [x for x in state[k] if x[0] != c]
                continue
            for entry in cyclic(state[k], c):
                state[k] = [x for x in state[k] if x != entry]
                if entry[0] < np and not uses(state, entry[0]):
                    raise Infeasible(entry[0], 2)
            del state[k]
        return True
    doomed = [k for k in held[c] if state[k][0] == (c, 0) and is_blocked(np, state, held, state[k], c)]
    for k in reversed(doomed):
        for entry in state[k][1:] + state[k][:1]:
            state[k] = [x for x in state[k] if x != entry]
            if entry[0] < np and not uses(state, entry[0]):
                raise Infeasible(entry[0], 3)
        del state[k]
    return bool(doomed)


def run(np, n, options, cap):
    """The rounds: ('reduced', state, rounds, settled) or ('infeasible', item, cause, round)."""
    state = {k: list(o) for k, o in enumerate(options) if any(i < np for i, _ in o)}
    held = holders(state)
    for q in range(np):
        if q not in held:
            return "infeasible", q, 1, 0
    done = 0
    while done < cap:
        done += 1
        changed = False
        for c in range(n):
            if c not in held:
                continue
            try:
                removed = step(np, state, held, c)
            except Infeasible as stop:
                return ("infeasible",) + stop.args + (done,)
            if removed:
                changed = True
                held = holders(state)
        if not changed:
            return "reduced", state, done, True
    return "reduced", state, done, False


def options_of(items, colours, ends):
    begins = [0] + list(ends)
    return [list(zip(items[a:b], colours[a:b])) for a, b in zip(begins, ends)]


def reduce(np, ns, cap, items, colours, ends, room, results, fig=FULL, ragged=False):
    wrong = refusal(fig, np, ns, items, colours, ends, room, results, ragged)
    if wrong:
        return wrong[0], [wrong[1]], results
    n = np + ns
    end = run(np, n, options_of(items, colours, ends), cap)
    if end[0] == "infeasible":
        return 1, list(end[1:]), results
    _, state, done, settled = end
    kept = sorted(holders(state))
    order = sorted(state, key=lambda k: (state[k][0][0], k))
    new = [kept, [], list(order), [], []]
    for k in order:
        new[3] += [i for i, _ in state[k]]
        new[4] += [x for _, x in state[k]]
        new[1].append(len(new[3]))
    primaries = sum(c < np for c in kept)
    values = [primaries, len(kept) - primaries, len(order), len(new[3]), done, int(settled)]
    return 0, values, [w + old[len(w):] for w, old in zip(new, results)]


def renumber(kept, primaries, items, out, crate=False):
    """(number, place, out) of the two renumberings."""
    if any(a >= b for a, b in zip(kept, kept[1:])) or primaries == 0 or primaries > len(kept):
        return 24, 0, out
    if len(out) < len(items):
        return 18, 0, out
    for place, i in enumerate(items):
        if i not in kept:
            return 25, place, out
    if crate:
        sd = kept[primaries] - kept[primaries - 1] - 1 if primaries < len(kept) else 0
        new = [i if i in kept[:primaries] else i - sd for i in items]
    else:
        new = [kept.index(i) for i in items]
    return 0, 0, new + out[len(new):]

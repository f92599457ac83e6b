"""Cases of kept circuits: an edit of the words, then judge_kept and copy_gates.

A line: kind 25; source 1; the words before (their length, how many are not 0, place and value of each); the edit (0 start, 1 append, 2 remove last, 3 replace), the position, the
gate's five words, of which start takes a and b as qubits and bits; how many bytes the store has, and these; the lengths of result and work, and of the room for the copy; verdict,
index and the checksum of the words; verdict and index of the circuit; verdict and index of the copy, and each word of its room, which holds 7 before.

The Rust keeps no counts: document 02 decides. Words of a circuit are made here from its gate list, counted afresh each time, and its verdict is that of circuit_channel's ten questions
on the gate list (rules.py). Words that are damaged are judged by document 02's list of what 25 names.
"""
import random
import sys

from circuit_cases import BAD_GATES, BIG
from circuits import PLAIN, flat, gate, text
from rules import CEILINGS, H, MAX_WEIGHT, MEASURE, RESET, WEIGHT, X, bad_operand, channel_sizes, channel_verdict, checksum, counts, malformed, split, unsupported, weight

KIND = 25
HEAD, GATE, MAX_QUBITS, MAX_BITS, MAX_GATES = 70, 5, 5, 64, 1024
START, APPEND, REMOVE, REPLACE = range(4)
NO_GATE = (0, 0, 0, 0, 0)
EVERY = PLAIN + [MEASURE, MEASURE, MEASURE, RESET]


def words_of(n, bits, gs, size):
    """Counted afresh."""
    splits, written = counts(gs)
    measures = [sum(g[0] == MEASURE and g[2] == b for g in gs) for b in range(MAX_BITS)]
    words = [n, bits, len(gs), weight(gs), splits, written, *measures, *flat(gs)]
    return words + [0] * (size - len(words))


def places(words):
    return min(MAX_GATES, (len(words) - HEAD) // GATE)


def sound(words):
    """Of all that 25 names, what every call asks."""
    if len(words) < HEAD or not 0 <= words[0] <= MAX_QUBITS or not 0 <= words[1] <= MAX_BITS or not 0 <= words[2] <= places(words):
        return False
    return all(0 <= w <= words[2] for w in words[3:HEAD])


def fault(words, g, i):
    """Questions 4 to 6 of a gate at a position."""
    if malformed(g):
        return (5, i)
    if bad_operand(g, words[0], words[1]):
        return (3, i)
    return (2, i) if unsupported(g) else None


def without(words, g):
    """The counts with a gate taken out, or None where one would fall below 0."""
    out = list(words)
    out[2] -= 1
    out[3] -= WEIGHT.get(g[0], 0)
    out[4] -= g[0] in (MEASURE, RESET)
    if g[0] == MEASURE:
        out[6 + g[2]] -= 1
        out[5] -= out[6 + g[2]] == 0
    return out if min(out[2:HEAD]) >= 0 else None


def with_gate(words, g, i):
    out = list(words)
    out[2] += 1
    out[3] += WEIGHT.get(g[0], 0)
    out[4] += g[0] in (MEASURE, RESET)
    if g[0] == MEASURE:
        out[6 + g[2]] += 1
        out[5] += out[6 + g[2]] == 1
    out[HEAD + GATE * i:HEAD + GATE * (i + 1)] = g
    return out


def edited(words, edit, position, g):
    """Verdict and the words after, by document 02."""
    if edit == START:
        if g[1] > MAX_QUBITS or g[2] > MAX_BITS:
            return (1, 0), words
        return ((8, 0), words) if len(words) < HEAD else ((0, 0), words_of(g[1], g[2], [], len(words)))
    if not sound(words):
        return (25, 0), words
    count = words[2]
    if edit == APPEND:
        if count >= places(words):
            return (20, 0), words
        refused = fault(words, g, count)
        return (refused, words) if refused else ((0, 0), with_gate(words, g, count))
    at = count - 1 if edit == REMOVE else position
    less = words
    if 0 <= at < count:
        old = tuple(words[HEAD + GATE * at:HEAD + GATE * (at + 1)])
        less = without(words, old) if all(0 <= w <= BIG for w in old) and not fault(words, old, at) else None
    if less is None:
        return (25, 0), words
    if not 0 <= at < count:
        return (21, 0), words
    if edit == REMOVE:
        less[HEAD + GATE * at:HEAD + GATE * (at + 1)] = NO_GATE
        return (0, 0), less
    refused = fault(words, g, at)
    return (refused, words) if refused else ((0, 0), with_gate(less, g, at))


def from_counts(words, store, result, work):
    """The questions that the counts answer, in order."""
    if not sound(words):
        return (25, 0)
    n, bits, count, heavy, splits, written = words[:6]
    if len(store) != bits or any(b > 1 for b in store):
        return (4, 0)
    b, v, d = 2**splits, 2**min(splits, written), 2**n
    if b > CEILINGS[4] or v * d**4 + (3 * b + 8) * d * d > CEILINGS[1] or 2 * count * b * d**3 + b * d**4 > CEILINGS[2]:
        return (1, 0)
    if heavy > MAX_WEIGHT:
        return (7, 0)
    want = channel_sizes(n, split(splits, written))
    return (8, 0) if result < want[0] or work < want[1] else (0, 0)


def copied(words, room):
    """Verdict, and the words of the room."""
    kept = [7] * room
    if not sound(words) or not all(0 <= w <= BIG for w in words[HEAD:HEAD + GATE * words[2]]):
        return (25, 0), kept
    n = GATE * words[2]
    return ((8, 0), kept) if room < n else ((0, 0), words[HEAD:HEAD + n] + kept[n:])


def case(words, edit, position, g, store, lengths, room, gs=None):
    """`gs`: the gate list after an edit that is accepted, if the words are those of a gate list."""
    verdict, after = edited(words, edit, position, g)
    judged = from_counts(after, store, *lengths)
    if gs is not None:
        assert after == words_of(after[0], after[1], gs, len(words)), (words, after)
        assert judged == channel_verdict(CEILINGS, after[0], after[1], store, flat(gs), *lengths), (words, judged)
    seen, out = copied(after, room)
    placed = [x for i, w in enumerate(words) if w for x in (i, w)]
    return [KIND, 1, len(words), len(placed) // 2, *placed, edit, position, *g, len(store), *store, *lengths, room, *verdict, checksum(after), *judged, *seen, *out]


def history(rng, n, bits, spaces, length):
    """Edits of one circuit, one after another, refused ones among them."""
    size, gs = HEAD + GATE * spaces + rng.choice([0, 0, 3, 4]), []
    store = [rng.randrange(2) for _ in range(bits)]
    yield case([7] * size, START, 0, (0, n, bits, 0, 0), store, (0, 0), 3, [])
    for _ in range(length):
        words = words_of(n, bits, gs, size)
        edit = rng.choice([APPEND, APPEND, APPEND, REMOVE, REPLACE, REPLACE])
        at = rng.choice([rng.randrange(len(gs) + 1), rng.randrange(len(gs) + 1), len(gs), BIG])
        g = gate(rng, n, EVERY, bits) or NO_GATE
        if rng.random() < 0.2:
            g = rng.choice(BAD_GATES)
        accepted = edited(words, edit, at, g)[0] == (0, 0)
        if accepted:
            gs = gs + [g] if edit == APPEND else gs[:-1] if edit == REMOVE else gs[:at] + [g] + gs[at + 1:]
        want = channel_sizes(n, gs)
        lengths = rng.choice([want, want, (want[0] - 1, want[1]), (want[0], want[1] - 1)])
        yield case(words, edit, at, g, rng.choice([store, store, store, store + [0], [2] * bits]), lengths, GATE * len(gs) + rng.choice([0, 0, 1, 2, -1 if gs else 0]), gs)


def damages(words):
    """One word wrong, of each kind that 25 names, and what is just not wrong."""
    count = words[2]
    for at in (0, 1, 2, 3, 4, 5, 6, 7, HEAD - 1):
        for value in (-1, -2**61, count, count + 1, 2**61):
            yield words[:at] + [value] + words[at + 1:]
    for at, value in ((0, 5), (0, 6), (1, 64), (1, 65), (2, places(words)), (2, places(words) + 1), (2, 0), (3, 0), (4, 0), (5, 0), (6, 0), (7, 0)):
        yield words[:at] + [value] + words[at + 1:]
    last = HEAD + GATE * (count - 1)
    for at in range(last, last + GATE):
        for value in (-1, 27, 2**32, 9):
            yield words[:at] + [value] + words[at + 1:]


def lines(rng):
    for n, bits, spaces in ((0, 0, 2), (0, 3, 2), (1, 1, 4), (1, 2, 6), (2, 2, 8), (3, 3, 6), (5, 64, 3), (2, 0, 0)):
        yield from history(rng, n, bits, spaces, 24)
    for n, bits in ((0, 0), (5, 64), (6, 64), (5, 65), (BIG, 0), (0, BIG)):  # start at its limits, and with few words
        for size in (HEAD, HEAD - 1, 0, HEAD + 7):
            yield case([5] * size, START, 0, (0, n, bits, 0, 0), [0] * min(bits, 64), (10**6, 10**6), 0)
    gs = [(H, 0, 0, 0, 0), (MEASURE, 0, 0, 0, 0), (MEASURE, 1, 1, 0, 0), (RESET, 1, 0, 0, 0), (MEASURE, 1, 1, 0, 0)]
    for words in damages(words_of(2, 2, gs, HEAD + GATE * 6)):
        edit = rng.choice([APPEND, REMOVE, REMOVE, REPLACE])
        at = rng.choice([4, 4, 0, 5])
        yield case(words, edit, at, rng.choice([(X, 0, 0, 0, 0), (MEASURE, 0, 1, 0, 0)]), [0, 1], (10**6, 10**6), GATE * 6)
    for g in BAD_GATES:  # each gate that questions 4 to 6 refuse
        words = words_of(2, 1, gs[:1], HEAD + GATE * 2)
        yield case(words, rng.choice([APPEND, REPLACE]), 0, g, [1], (10**6, 10**6), GATE)
    for count in (1022, 1023, 1024):  # the most gates, in words with places for one more
        words = [1, 0, count, count, 0, 0] + [0] * (64 + GATE * (MAX_GATES + 1))
        for edit in (APPEND, REMOVE, REPLACE):
            yield case(words, edit, count - 1, (X, 0, 0, 0, 0), [], (10**6, 10**6), 0)
    for words in ([], [0] * 69, [0] * HEAD):  # too few words, and just enough
        for edit in (APPEND, REMOVE, REPLACE):
            yield case(words, edit, 0, (X, 0, 0, 0, 0), [], (10**6, 10**6), 0)


def main():
    seed = 2026
    made, verdicts = list(lines(random.Random(seed))), {}
    for line in made:
        verdict = line[-(line[2 + 1 + 1 + 2 * line[3] + 7 + line[4 + 2 * line[3] + 7] + 3] + 7)]
        verdicts[verdict] = verdicts.get(verdict, 0) + 1
    print(len(made), *map(text, made), sep="\n")
    print(f"seed {seed}: {len(made)} edits; by verdict {dict(sorted(verdicts.items()))}", file=sys.stderr)


main()

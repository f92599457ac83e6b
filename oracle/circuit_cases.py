"""Cases of circuit_unitary and circuit_channel: `circuit_cases.py unitary` or `circuit_cases.py channel`.

A line: kind 2 for a unitary, 3 for a channel; source; the lengths of result, work and effects; limits (0 for the defaults, or 1 and six numbers), n, bits, store
length and bytes, gate word count and words; verdict, index, checksums of result and work; of a channel the verdict of classical_blocks on that result and the
checksum of the effects (a channel that was refused leaves words that are refused too). A unitary has no bits, no store and no effects.

Each lent word holds its place mod 997, plus 1, before the call. Source 0: verdict and entries are the Rust's; 1: a refusal by document 01,
or one whose words the Rust cannot hold. The order of records is document 01's (rules.py works out which branches survive).
"""
import random
import sys

from ask import ask, blocks, matrix, refusal
from circuits import HARD, PLAIN, circuit, deep, flat, text, walk
from rules import (CCX, CEILINGS, CH, CNOT, CP, CRZ, CSWAP, H, MAX_WEIGHT, MEASURE, P, RESET, RX, RZ, SWAP, SX, T, X, Z, arity, channel_sizes, channel_verdict,
                   channel_words, checksum, gates, read_channel, store_order, unitary_sizes, unitary_verdict)

BIG = 2**32 - 1
BAD_GATES = [(27, 0, 0, 0, 0), (BIG, 0, 0, 0, 0), (RZ, 0, 0, 0, 9), (RZ, 0, 0, 0, BIG), (RZ, 0, 0, 0, 8), (H, 0, 0, 0, 1), (X, 0, 1, 0, 0), (Z, 0, 0, 1, 0),
             (CNOT, 0, 1, 1, 0), (CNOT, 0, 0, 0, 0), (CNOT, 1, 1, 0, 0), (SWAP, 0, 0, 0, 0), (CCX, 0, 1, 0, 0), (CCX, 0, 1, 1, 0), (CSWAP, 1, 0, 0, 0),
             (CCX, 0, 1, 2, 1), (P, 0, 0, 0, 0), (P, 0, 0, 0, 1), (RX, 0, 0, 0, 0), (CP, 0, 1, 0, 0), (CP, 0, 0, 0, 0), (CRZ, 1, 0, 0, 0), (CRZ, 0, 1, 1, 0),
             (X, BIG, 0, 0, 0), (CNOT, 0, BIG, 0, 0), (MEASURE, 0, BIG, 0, 0), (MEASURE, 0, 0, 1, 0), (MEASURE, 0, 0, 0, 1), (MEASURE, BIG, 0, 0, 0),
             (RESET, 0, 1, 0, 0), (RESET, BIG, 0, 0, 0), (RX, BIG, 0, 0, 0), (RX, 0, 0, 0, 3), (27, BIG, BIG, BIG, BIG)]


def pattern(length):
    return [i % 997 + 1 for i in range(length)]


def over(length, words):
    return words + pattern(length)[len(words):]


def buffer_lengths(rng, want, short):
    """Lengths that are enough, or one word or more too short; or so many words to spare."""
    if isinstance(short, tuple):
        return want[0] + short[0], want[1] + short[1]
    result, work = (w + rng.choice([0, 0, 1, 7, 50]) for w in want)
    if short == 1:
        result = rng.choice([want[0] - 1, 0, want[0] // 2])
    if short == 2:
        work = rng.choice([want[1] - 1, 0, want[1] // 2])
    return result, work


def expressible(words, store=()):
    """Whether the Rust's types hold this list and store."""
    return len(words) % 5 == 0 and all(g[0] <= 26 and (g[0] != RZ or g[4] <= 8) for g in gates(words)) and all(b <= 1 for b in store)


def spoil(rng, gs, n):
    """A list with one or two gates that questions 4 to 6 refuse, or might."""
    out = list(gs)
    for _ in range(rng.choice([1, 1, 2])):
        out.insert(rng.randint(0, len(out)), rng.choice(BAD_GATES + [(X, n, 0, 0, 0), (H, max(n - 1, 0), 0, 0, 0)]))
    words = flat(out)
    if rng.random() < 0.1:
        words = words[:-rng.randint(1, 4)]
    return words


def lowered(rng, limits, at, exact):
    """The limit `at` set to just enough, or one less."""
    out = list(limits)
    out[at] = min(CEILINGS[at], max(0, exact - rng.choice([0, 0, 1])))
    return out


def shown(limits):
    """0 for the defaults, else 1 and the limits."""
    return [0] if tuple(limits) == CEILINGS else [1, *limits]


# ---- unitaries
def unitary_inputs(rng):
    out = []  # limits, n, words, short
    full = list(CEILINGS[:4])
    for kind in range(27):  # every kind on every order of operands of two and three qubits
        for n in (arity(kind), arity(kind) + 1):
            places = [(a, b, c) for a in range(n) for b in range(n) for c in range(n)]
            used = arity(kind)
            seen = {p[:used] for p in places if len(set(p[:used])) == used}
            for p in sorted(seen):
                g = (kind, *p, *([0] * (3 - used)), rng.randrange(8) if kind == RZ else 0)
                out.append((full, n, flat([g]), 0))
    for n in (0, 1, 2, 3, 4, 5):
        for _ in range(22):
            out.append((full, n, flat(circuit(rng, n, rng.randint(0, 14), PLAIN)), rng.choice([0] * 8 + [1, 2])))
    for j in range(24):  # high weights
        n = rng.choice([1, 2, 2, 3, 3])
        gs = deep(rng, n, rng.randint(30, MAX_WEIGHT)) if j % 2 else circuit(rng, n, rng.randint(60, 100), HARD)
        out.append((full, n, flat(gs), 0))
    for w in (MAX_WEIGHT - 1, MAX_WEIGHT, MAX_WEIGHT + 1, 60):
        for kind in (H, SX):
            out.append((full, 1, flat([(kind, 0, 0, 0, 0), (T, 0, 0, 0, 0)] * w), 0))
        out.append((full, 2, flat([(CH, 0, 1, 0, 0), (X, 0, 0, 0, 0)] * w), 0))
        out += [(full, n, flat(walk(rng, n, w)), 0) for n in (2, 3)]
    for _ in range(80):
        n = rng.randint(1, 4)
        out.append((full, n, spoil(rng, circuit(rng, n, rng.randint(0, 5), PLAIN), n), rng.choice([0, 0, 1])))
    for _ in range(40):  # limits at their edges
        n = rng.randint(0, 3)
        gs = circuit(rng, n, rng.randint(0, 4), PLAIN)
        d, at = 2**n, rng.randrange(4)
        limits = lowered(rng, full, at, (n, 8 * d * d, d**3 * len(gs), len(gs))[at])
        words = flat(gs) if rng.random() < 0.7 else spoil(rng, gs, n)
        out.append((limits, n, words, rng.choice([0, 0, 1, 2])))
    for at in range(4):
        over_ceiling = list(full)
        over_ceiling[at] += 1
        out += [(over_ceiling, 1, flat([(X, 0, 0, 0, 0)]), 0), (over_ceiling, 1, [1, 2, 3], 1)]
    out += [([0, 0, 0, 0], 0, [], 0), ([0, 8, 0, 0], 0, [], 0), (full, 6, [], 0), (full, BIG, flat([(X, BIG - 1, 0, 0, 0)]), 0)]
    out += [(full, 1, flat([(X, 0, 0, 0, 0)] * g), 0) for g in (1024, 1025)]
    return out


def more_unitary_inputs(rng):
    """Accepted ones with words to spare in either buffer or in both."""
    for n, spare in [(n, spare) for n in (0, 1, 2, 3) for spare in ((0, 1), (1, 0), (3, 200), (5, 1000))]:
        yield list(CEILINGS[:4]), n, flat(circuit(rng, n, 6, PLAIN)), spare


def unitary_lines(rng, inputs):
    todo = []
    for limits, n, words, short in inputs:
        want = unitary_sizes(n) if n <= 5 else (10, 10)
        result, work = buffer_lengths(rng, want, short)
        todo.append((limits, n, words, result, work, unitary_verdict(limits, n, words, result, work)))
    answers = ask([f"unitx {text(limits)} {n} {len(words) // 5} {text(words)}" if expressible(words) else "unit 0 0" for limits, n, words, *_ in todo])
    for (limits, n, words, result, work, verdict), answer in zip(todo, answers):
        of_rust = expressible(words) and verdict[0] <= 3
        if of_rust:
            assert (refusal(answer) or (0, 0)) == verdict, (limits, n, words, answer[:1], verdict)
        after, spent = [], []
        if verdict[0] == 0:
            d = 2**n
            after = [0] * (5 * d * d)
            for (r, c), s in matrix(answer[1:]).items():
                after[5 * (r * d + c):5 * (r * d + c) + 5] = s
            spent = [0] * unitary_sizes(n)[1]
        sums = checksum(over(result, after)), checksum(over(work, spent))
        yield [0 if of_rust else 1, result, work, 0, *shown([*limits, *CEILINGS[4:]]), n, 0, 0, len(words), *words, *verdict, *sums], verdict[0]


# ---- channels
def channel_inputs(rng):
    out = []  # limits, n, bits, store, words, short
    full = list(CEILINGS)
    every = PLAIN + [MEASURE, MEASURE, MEASURE, RESET, RESET]

    def store(bits):
        return [rng.randrange(2) for _ in range(bits)]

    for n, bits, bit in [(n, b, j) for n in (1, 2, 3) for b in (1, 2) for j in range(b)]:  # a measure or a reset of each qubit, after h
        for q in range(n):
            out.append((full, n, bits, store(bits), flat([(H, q, 0, 0, 0), (MEASURE, q, bit, 0, 0)]), 0))
            out.append((full, n, bits, store(bits), flat([(H, q, 0, 0, 0), (RESET, q, 0, 0, 0), (MEASURE, n - 1 - q, bit, 0, 0)]), 0))
    for n, count in ((0, 12), (1, 268), (2, 270), (3, 70), (4, 10)):
        for _ in range(count):
            bits = rng.choice([0, 1, 1, 2, 2, 3, 5, 33, 64])
            most = {0: 0, 1: 6, 2: 6, 3: 4, 4: 1}[n]
            gs = circuit(rng, n, rng.randint(0, 14), every, bits, splits=rng.randint(0, most))
            out.append((full, n, bits, store(bits), flat(gs), rng.choice([0] * 12 + [1, 2])))
    for _ in range(40):  # one or two bits written again and again
        n = rng.choice([1, 2])
        gs = [g for _ in range(6) for g in (circuit(rng, n, 2, PLAIN) + [(MEASURE, rng.randrange(n), rng.choice([0, 40]), 0, 0)])]
        out.append((full, n, 41, store(41), flat(gs), 0))
    for j in range(32):  # high weights
        n = rng.choice([1, 2, 2, 2, 3])
        gs = deep(rng, n, rng.randint(30, MAX_WEIGHT)) if j % 2 else circuit(rng, n, rng.randint(40, 80), HARD)
        for _ in range(rng.randint(0, 3 if n < 3 else 1)):
            gs.insert(rng.randint(0, len(gs)), rng.choice([(MEASURE, rng.randrange(n), rng.randrange(2), 0, 0), (RESET, rng.randrange(n), 0, 0, 0)]))
        out.append((full, n, 2, store(2), flat(gs), 0))
    for w in (MAX_WEIGHT, MAX_WEIGHT + 1):
        for kind in (H, SX):
            out.append((full, 1, 1, store(1), flat([(kind, 0, 0, 0, 0), (T, 0, 0, 0, 0)] * w + [(MEASURE, 0, 0, 0, 0)]), 0))
        out.append((full, 2, 1, store(1), flat(walk(rng, 2, w) + [(MEASURE, 0, 0, 0, 0)]), 0))
    for _ in range(140):
        n, bits = rng.randint(0, 3), rng.choice([0, 1, 3])
        gs = circuit(rng, n, rng.randint(0, 5), every, bits, splits=3)
        s = store(bits)
        if rng.random() < 0.2:
            s = rng.choice([s + [0], s[:-1], [2] + s[1:], s + [255]])
        out.append((full, n, bits, s, spoil(rng, gs, n) if rng.random() < 0.8 else flat(gs), rng.choice([0, 0, 1, 2])))
    for _ in range(90):  # limits at their edges
        n, bits = rng.randint(0, 2), rng.choice([0, 1, 2, 6])
        gs = circuit(rng, n, rng.randint(0, 6), every, bits, splits=4)
        splits, measured = sum(g[0] in (MEASURE, RESET) for g in gs), len({g[2] for g in gs if g[0] == MEASURE})
        b, v, d = 2**splits, 2**measured, 2**n
        exact = (n, v * d**4 + (3 * b + 8) * d * d, 2 * len(gs) * b * d**3 + b * d**4, len(gs), b, bits)
        at = rng.randrange(6)
        s = store(bits) if rng.random() < 0.9 else store(bits + 1)
        words = flat(gs) if rng.random() < 0.8 else spoil(rng, gs, n)
        out.append((lowered(rng, full, at, exact[at]), n, bits, s, words, rng.choice([0, 0, 0, 1, 2])))
    for at in range(6):
        over_ceiling = list(full)
        over_ceiling[at] += 1
        out += [(over_ceiling, 1, 0, [], flat([(X, 0, 0, 0, 0)]), 0), (over_ceiling, 1, 1, [3], [1, 2, 3], 1)]
    measures = [(MEASURE, 0, 0, 0, 0), (MEASURE, 1, 1, 0, 0)]
    six = [(MEASURE, 0, 0, 0, 0)] * 6
    out += [(full, 0, 0, [], [], 0), (full, 5, 0, [], [], 0), (full, 4, 2, [0, 0], flat(measures), 0), (full, 4, 1, [0], flat([measures[0]] * 2), 0),
            (full, 4, 1, [1], flat(six + [(X, 0, 0, 0, 0)] * 5), 0), (full, 4, 1, [0], flat(six + [(X, 0, 0, 0, 0)] * 6), 0),
            (full, 1, 0, [], flat([(RESET, 0, 0, 0, 0)]), 0), (full, 1, 0, [], flat([(RESET, 0, 0, 0, 0)] * 7), 0),
            (full, 1, 65, [0] * 64, [], 0), (full, 1, 65, [0] * 65, [], 0), (full, 1, 64, [1] * 64, flat([(MEASURE, 0, 63, 0, 0)]), 0),
            (full, 2, 0, [], flat([(CNOT, 0, 0, 0, 0)]), 0), (full, BIG, 0, [], flat([(X, BIG - 1, 0, 0, 0)]), 0), (full, 1, BIG, [], [], 0),
            (full, 3, 5, [0, 1, 0, 1, 0], flat([(H, 0, 0, 0, 0)] + [(MEASURE, j % 3, j, 0, 0) for j in range(5)]), 0), ([0] * 6, 0, 0, [], [], 0)]
    return out


def more_channel_inputs(rng):
    """Accepted ones with words to spare in either buffer or in both."""
    every = PLAIN + [MEASURE, MEASURE, RESET]
    for n, spare in [(n, spare) for n in (0, 1, 2, 3) for spare in ((0, 1), (1, 0), (3, 200), (5, 1000))]:
        gs = circuit(rng, n, 6, every, 2, splits=[0, 3, 2, 1][n])
        yield list(CEILINGS), n, 2, [rng.randrange(2), 1], flat(gs), spare


def channel_lines(rng, inputs):
    todo = []
    for limits, n, bits, store, words, short in inputs:
        want = channel_sizes(n, gates(words)) if n <= 4 and channel_verdict(CEILINGS, n, bits, store, words, 10**9, 10**9)[0] == 0 else (64, 64)
        result, work = buffer_lengths(rng, want, short)
        todo.append((limits, n, bits, store, words, result, work, channel_verdict(limits, n, bits, store, words, result, work)))
    told = [expressible(words, store) and verdict[0] <= 4 for _, _, _, store, words, _, _, verdict in todo]
    answers = ask([f"chanx {text(limits)} {n} {bits} {len(store)} {text(store)} {len(words) // 5} {text(words)}" if t else "unit 0 0"
                   for t, (limits, n, bits, store, words, *_) in zip(told, todo)])
    effects = ask([f"eff {n} {bits} {text(store)} {len(words) // 5} {text(words)}" if t and v[0] == 0 else "unit 0 0"
                   for t, (_, n, bits, store, words, _, _, v) in zip(told, todo)])
    for (limits, n, bits, store, words, result, work, verdict), of_rust, answer, effect in zip(todo, told, answers, effects):
        after, spent, length, tail = [], [], 0, [10, checksum([])]
        if of_rust:
            assert (refusal(answer) or (0, 0)) == verdict, (limits, n, bits, store, words, answer[:1], verdict)
        if verdict[0] == 0:
            dim, cbits, by_store = blocks(answer)
            order = store_order(n, store, gates(words))
            assert sorted(order) == sorted(by_store) and (dim, cbits) == (2**n, bits), (n, words)
            after = channel_words(dim, bits, order, by_store, dim * dim)
            spent = [0] * channel_sizes(n, gates(words))[1]
            effect_words = channel_words(dim, bits, order, blocks(effect)[2], dim)
            length = len(effect_words) + rng.choice([0, 0, 3, -1])
            short = length < len(effect_words)
            tail = [8 if short else 0, checksum(pattern(length) if short else over(length, effect_words))]
        else:
            assert read_channel(pattern(result)) is None
        sums = checksum(over(result, after)), checksum(over(work, spent))
        yield [0 if of_rust else 1, result, work, length, *shown(limits), n, bits, len(store), *store, len(words), *words, *verdict, *sums, *tail], verdict[0]


def main():
    what = sys.argv[1]
    seed = {"unitary": 1995, "channel": 2010}[what]
    kind, made, inputs, more = {"unitary": (2, unitary_lines, unitary_inputs, more_unitary_inputs), "channel": (3, channel_lines, channel_inputs, more_channel_inputs)}[what]
    lines, verdicts = [], {}
    for rng, inputs in ((random.Random(seed), inputs), (random.Random(seed + 1), more)):
        for line, verdict in made(rng, inputs(rng)):
            lines.append(line)
            verdicts[verdict] = verdicts.get(verdict, 0) + 1
    print(len(lines), *(text([kind, *line]) for line in lines), sep="\n")
    of_rust = sum(line[0] == 0 for line in lines)
    print(f"seed {seed}: {len(lines)} cases, {of_rust} by the Rust, {len(lines) - of_rust} by document 01; by verdict {dict(sorted(verdicts.items()))}", file=sys.stderr)


if __name__ == "__main__":
    main()

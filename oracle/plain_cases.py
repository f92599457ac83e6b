"""Cases of plain_channel.

A line: kind 23; source; the lengths of result and work, and 0; limits, n, bits, store and gates as for circuit_channel; verdict, index, checksums of result and work.

Each lent word holds its place mod 997, plus 1, before the call. Source 0: accepted, and the entries are those of the Rust's channel, none with a √2 part; 1: a refusal by the documents.
"""
import random
import sys

from ask import ask, blocks
from circuit_cases import BAD_GATES, over, shown
from circuits import PLAIN as SUPPORTED, circuit, flat, text
from rules import CCX, CCZ, CEILINGS, CH, CSWAP, H, MAX_WEIGHT, MEASURE, PROFILE, RESET, RZ, SX, T, TDG, X, channel_sizes, channel_verdict, channel_words, checksum, gates, outside, store_order

KIND = 23
FULL = list(CEILINGS)
ROOM = (40000, 4000)  # buffers that hold what is accepted here
OUTSIDE = [(T, 0, 0, 0, 0), (TDG, 0, 0, 0, 0), (CH, 0, 1, 0, 0), (CCX, 0, 1, 2, 0), (CCZ, 2, 1, 0, 0), (CSWAP, 0, 1, 2, 0)] + [(RZ, 0, 0, 0, k) for k in (1, 3, 5, 7)]


def plain(rng, n, length, splits):
    """Gates of the profile; the turns of rz are quarters."""
    kinds = [k for k in sorted(PROFILE) if k not in (MEASURE, RESET)] + [RZ, H, MEASURE, MEASURE, RESET]
    return [(g[0], *g[1:4], g[4] - g[4] % 2) for g in circuit(rng, n, length, kinds, 2, splits=splits)]


def inputs(rng):
    """limits, n, bits, store, words, lengths of the buffers."""
    for n, count in ((0, 1), (1, 16), (2, 24), (3, 12)):
        for _ in range(count):
            gs = plain(rng, n, rng.randint(0, 14), splits=min(n, 2))
            yield FULL, n, 2, [rng.randrange(2), rng.randrange(2)], flat(gs), ROOM
    for k in range(10):  # every k of rz
        yield FULL, 1, 0, [], flat([(H, 0, 0, 0, 0), (RZ, 0, 0, 0, k), (H, 0, 0, 0, 0)]), ROOM
    for kind in range(28):  # every kind on three qubits
        for g in ((kind, 2, 0, 0, 0), (kind, 0, 1, 0, 0), (kind, 0, 1, 2, 0)):
            yield FULL, 3, 1, [1], flat([(H, 1, 0, 0, 0), g]), ROOM
    for g in OUTSIDE:  # before and after what is refused otherwise, and at the same gate
        for bad in rng.sample(BAD_GATES, 3):
            yield FULL, 3, 1, [0], flat([g, bad]), ROOM
            yield FULL, 3, 1, [0], flat([bad, g]), ROOM
        yield FULL, 3, 1, [0], flat([(g[0], 3, *g[2:])]), ROOM
        yield FULL, 3, 1, [7], flat([(X, 0, 0, 0, 0), g]), (0, 0)  # before the store and the buffers
        yield [6, *FULL[1:]], 3, 1, [0], flat([g]), ROOM
        yield [*FULL[:3], 0, *FULL[4:]], 3, 1, [0], flat([g]), ROOM
        yield FULL, 3, 1, [0], flat([g])[:4], ROOM
        yield FULL, 9, 0, [], flat([(X, 8, 0, 0, 0), g]), ROOM
    for _ in range(20):  # any gates
        n = rng.randint(1, 3)
        yield FULL, n, 2, [0, 1], flat(circuit(rng, n, rng.randint(1, 5), SUPPORTED + [MEASURE, RESET], 2, splits=2)), ROOM
    for kind in (H, SX):
        for w in (MAX_WEIGHT, MAX_WEIGHT + 1):
            yield FULL, 1, 0, [], flat([(kind, 0, 0, 0, 0), (RZ, 0, 0, 0, 2)] * w), ROOM
    h = [(H, 0, 0, 0, 0)]
    result, work = channel_sizes(1, h)
    for lengths in ((0, 0), (result - 1, work), (result, work), (result, work - 1)):
        yield FULL, 1, 0, [], flat(h), lengths
    yield FULL, 0, 0, [], [], ROOM


def lines(rng):
    todo = [(*one, channel_verdict(*one[:5], *one[5], plain=True)) for one in inputs(rng)]
    answers = ask([f"chanx {text(limits)} {n} {bits} {len(store)} {text(store)} {len(words) // 5} {text(words)}" if verdict[0] == 0 else "unit 0 0"
                   for limits, n, bits, store, words, _, verdict in todo])
    for (limits, n, bits, store, words, (result, work), verdict), answer in zip(todo, answers):
        after, spent = [], []
        if verdict[0] == 0:
            dim, cbits, by_store = blocks(answer)
            order = store_order(n, store, gates(words))
            assert sorted(order) == sorted(by_store) and (dim, cbits) == (2**n, bits) and not any(map(outside, gates(words)))
            assert all(s[1] == s[3] == 0 for block in by_store.values() for s in block.values())
            after = channel_words(dim, bits, order, by_store, dim * dim)
            spent = [0] * channel_sizes(n, gates(words))[1]
        sums = checksum(over(result, after)), checksum(over(work, spent))
        yield [KIND, 0 if verdict[0] == 0 else 1, result, work, 0, *shown(limits), n, bits, len(store), *store, len(words), *words, *verdict, *sums], verdict[0]


def main():
    seed, made, verdicts = 2026, [], {}
    for line, verdict in lines(random.Random(seed)):
        made.append(line)
        verdicts[verdict] = verdicts.get(verdict, 0) + 1
    print(len(made), *map(text, made), sep="\n")
    print(f"seed {seed}: {len(made)} circuits, {verdicts[0]} by the Rust; by verdict {dict(sorted(verdicts.items()))}", file=sys.stderr)


main()

"""Cases of layered_channel.

A line: kind 7; source; the lengths of result and work, and 0; limits, n, bits, store and gates as for circuit_channel; how many ends there are, and these; verdict, index,
checksums of result and work.

Each lent word holds its place mod 997, plus 1, before the call. Source 0: accepted, and the entries are those of the Rust's channel of the gate list; 1: a refusal by the documents
(rules.py gathers the qubits and bits of each layer in a set).
"""
import random
import sys

from ask import ask, blocks
from circuit_cases import BAD_GATES, BIG, over, shown
from circuits import PLAIN, circuit, flat, text
from rules import CCX, CEILINGS, CNOT, H, MAX_WEIGHT, MEASURE, RESET, SWAP, X, channel_sizes, channel_verdict, channel_words, checksum, gates, layer_faults, qubits, store_order

KIND = 7
FULL = list(CEILINGS)
ROOM = (40000, 4000)  # buffers that hold what is accepted here


def layered(gs):
    """The ends of layers that are as full as they can be without moving a gate."""
    ends, used = [], set()
    for i, g in enumerate(gs):
        mine = set(qubits(g)) | ({-1 - g[2]} if g[0] == MEASURE else set())
        if used & mine:
            ends.append(i)
            used = set()
        used |= mine
    return ends + [len(gs)] if gs else ends


def shuffled(rng, gs, ends):
    out = []
    for start, end in zip([0, *ends], ends):
        part = gs[start:end]
        rng.shuffle(part)
        out += part
    return out


def inputs(rng):
    """limits, n, bits, store, words, ends, lengths of the buffers."""
    every = PLAIN + [MEASURE, MEASURE, RESET]
    for n, count in ((0, 1), (1, 8), (2, 16), (3, 10)):
        for _ in range(count):
            gs = circuit(rng, n, rng.randint(0, 12), every, 2, splits=min(n, 2))
            ends = layered(gs)
            store = [rng.randrange(2), rng.randrange(2)]
            yield FULL, n, 2, store, flat(gs), ends, ROOM
            yield FULL, n, 2, store, flat(shuffled(rng, gs, ends)), ends, ROOM
            if gs:
                yield FULL, n, 2, store, flat(gs), list(range(1, len(gs) + 1)), ROOM  # one gate a layer
                yield FULL, n, 2, store, flat(gs), [len(gs)], ROOM  # all in one layer
                bad = list(ends)
                bad[rng.randrange(len(bad))] += rng.choice([-1, 1, BIG])
                yield FULL, n, 2, store, flat(gs), [e % 2**32 for e in bad], ROOM
    two, x, m = flat([(X, 0, 0, 0, 0), (X, 1, 0, 0, 0)]), (X, 0, 0, 0, 0), (MEASURE, 0, 0, 0, 0)
    for ends in ([], [1], [2], [3], [0], [0, 2], [1, 1, 2], [1, 2], [2, 1], [1, 2, 3], [2, 2], [BIG], [1, BIG], [BIG, 2], [1, 2, 2], [2, BIG]):
        yield FULL, 2, 0, [], two, ends, ROOM
    for ends in ([], [0], [1], [BIG], [0, 0]):
        yield FULL, 1, 0, [], [], ends, ROOM
    clashes = [([(X, 1, 0, 0, 0), (H, 2, 0, 0, 0), (CNOT, 0, 2, 0, 0), (X, 0, 0, 0, 0)], [4]), ([m, (MEASURE, 1, 0, 0, 0)], [2]), ([m, (MEASURE, 1, 1, 0, 0)], [2]), ([m, (X, 1, 0, 0, 0)], [2]),
               ([m, x], [2]), ([x, x, x], [1, 3]), ([x, x, x], [2, 3]), ([(CCX, 0, 1, 2, 0), (SWAP, 3, 2, 0, 0)], [2]), ([(RESET, 1, 0, 0, 0), m, (X, 1, 0, 0, 0)], [3])]
    for gs, ends in clashes:
        yield FULL, 4, 2, [0, 0], flat(gs), ends, (0, 0)
        yield FULL, 4, 2, [0, 7], flat(gs), ends, (0, 0)
    for g in BAD_GATES[:12]:  # 4 to 6 before 11 and 12
        yield FULL, 2, 1, [0], flat([x, x, g]), [9], ROOM
        yield FULL, 2, 1, [0], flat([g, x, x]), [3], ROOM
    heavy = flat([(H, 0, 0, 0, 0)] * (MAX_WEIGHT + 1))
    yield FULL, 1, 0, [], heavy, list(range(1, MAX_WEIGHT + 2)), ROOM  # 7
    yield FULL, 1, 0, [], heavy, [MAX_WEIGHT + 1], ROOM  # 12 before 7
    yield FULL, 1, 1, [], flat([x, x]), [2], ROOM  # 12 before 4
    yield FULL, 1, 1, [], flat([x, x]), [1, 2], ROOM  # 4
    yield FULL, 1, 0, [], [1, 2, 3], [7], ROOM  # 5 before 11
    yield [6, *FULL[1:]], 1, 0, [], flat([x]), [7], ROOM  # 6 before 11
    yield [*FULL[:3], 0, *FULL[4:]], 1, 0, [], flat([x]), [7], ROOM  # 1, the operations, before 11
    yield FULL, 1, 0, [], flat([x]), [1], (0, 0)  # 8
    for gs, ends in (([(X, q, 0, 0, 0) for q in range(1024)], [1024]), ([(X, q, 0, 0, 0) for q in range(1023)] + [(H, 1022, 0, 0, 0)], [1024]), ([(X, q, 0, 0, 0) for q in range(1024)], [1, 1023])):
        yield FULL, 1024, 0, [], flat(gs), ends, (0, 0)


def lines(rng):
    todo = [(*one, channel_verdict(*one[:5], *one[6], ends=one[5])) for one in inputs(rng)]
    answers = ask([f"chanx {text(limits)} {n} {bits} {len(store)} {text(store)} {len(words) // 5} {text(words)}" if verdict[0] == 0 else "unit 0 0"
                   for limits, n, bits, store, words, _, _, verdict in todo])
    for (limits, n, bits, store, words, ends, (result, work), verdict), answer in zip(todo, answers):
        after, spent = [], []
        if verdict[0] == 0:
            dim, cbits, by_store = blocks(answer)
            order = store_order(n, store, gates(words))
            assert sorted(order) == sorted(by_store) and (dim, cbits) == (2**n, bits) and layer_faults(gates(words), ends) is None
            after = channel_words(dim, bits, order, by_store, dim * dim)
            spent = [0] * channel_sizes(n, gates(words))[1]
        sums = checksum(over(result, after)), checksum(over(work, spent))
        yield [KIND, 0 if verdict[0] == 0 else 1, result, work, 0, *shown(limits), n, bits, len(store), *store, len(words), *words, len(ends), *ends, *verdict, *sums], verdict[0]


def main():
    seed, made, verdicts = 2026, [], {}
    for line, verdict in lines(random.Random(seed)):
        made.append(line)
        verdicts[verdict] = verdicts.get(verdict, 0) + 1
    print(len(made), *map(text, made), sep="\n")
    print(f"seed {seed}: {len(made)} layered circuits, {verdicts[0]} by the Rust; by verdict {dict(sorted(verdicts.items()))}", file=sys.stderr)


main()

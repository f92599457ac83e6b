"""Pairs of circuits whose channels are compared, by the Rust.

A line: kind 4, source 0; the left and the right circuit, each as 0 (the default limits), n, bits, store length and bytes, gate word count and words; then the answer:
verdict 0; 0 same, 1 dimensions, 2 an entry; the store's two words, row, column, the left and the right scalar (0 unless an entry differs).
"""
import random
import sys

from ask import ask
from circuits import PLAIN, circuit, flat, gate, syllables, text
from rules import (CEILINGS, CNOT, CSWAP, CZ, H, MEASURE, RESET, RZ, S, SDG, SWAP, SX, T, TDG, X, Y, Z, ZERO, channel_verdict, qubits)

SEED = 1789
EVERY = PLAIN + [MEASURE, MEASURE, RESET]


def shares(g, h):
    if set(qubits(g)) & set(qubits(h)):
        return True
    return g[0] == MEASURE == h[0] and g[2] == h[2]


def schedule(rng, gs):
    """A random order in which any two gates that share keep theirs."""
    left, out = list(gs), []
    while left:
        free = [i for i, g in enumerate(left) if not any(shares(g, h) for h in left[:i])]
        out.append(left.pop(rng.choice(free)))
    return out


def one(kind, q, k=0):
    return (kind, q, 0, 0, k)


def rewrite(rng, gs, n):
    """An identity inserted, or a gate replaced by its equals."""
    out = list(gs)
    q = rng.randrange(n)
    if n > 1 and rng.random() < 0.4:
        p, q = rng.sample(range(n), 2)
        new = rng.choice([[(CNOT, p, q, 0, 0)] * 2, [(SWAP, p, q, 0, 0), (CNOT, p, q, 0, 0), (CNOT, q, p, 0, 0), (CNOT, p, q, 0, 0)],
                          [one(H, q), (CZ, p, q, 0, 0), one(H, q), (CNOT, p, q, 0, 0)]])
    else:
        new = rng.choice([[one(H, q)] * 2, [one(S, q), one(SDG, q)], [one(T, q), one(T, q), one(RZ, q, 6)], [one(X, q), one(Y, q), one(Z, q)],
                          [one(SX, q), one(SX, q), one(X, q)], [one(TDG, q), one(RZ, q, 1)], [one(H, q), one(X, q), one(H, q), one(Z, q)]])
    at = rng.randint(0, len(out))
    out[at:at] = new
    return out


def spoil(rng, gs, n, bits):
    out = list(gs)
    if out and rng.random() < 0.5:
        out.pop(rng.randrange(len(out)))
    else:
        out.insert(rng.randint(0, len(out)), gate(rng, n, EVERY if bits else PLAIN, bits))
    return out


def pairs(rng):
    out = []
    for j in range(230):
        n = rng.choice([1, 1, 1, 2, 2, 2, 3])
        bits = rng.choice([0, 1, 2, 2, 3, 40])
        gs = circuit(rng, n, rng.randint(0, 12), EVERY, min(bits, 3 if n < 3 else 1), splits=rng.randint(0, 4 if n < 3 else 2))
        if j % 20 == 0:
            gs = syllables(rng, n, rng.randint(20, 30)) + gs[:3]
        store = [rng.randrange(2) for _ in range(bits)]
        a = (n, store, gs)
        kind = j % 5
        if kind == 0:
            b = (n, store, schedule(rng, gs))
        elif kind == 1:
            b = (n, store, rewrite(rng, gs, n))
        elif kind == 2:
            b = (n, store, spoil(rng, gs, n, min(bits, 3 if n < 3 else 1)))
        elif kind == 3 and bits:
            other = list(store)
            other[rng.randrange(bits)] ^= 1
            b = (n, other, gs)
        else:
            b = (n, store, circuit(rng, n, rng.randint(0, 6), EVERY, min(bits, 1), splits=2))
        out.append((a, b) if rng.random() < 0.5 else (b, a))
    for _ in range(30):  # schedules of longer lists, both ways round
        n = rng.choice([2, 3])
        gs = circuit(rng, n, rng.randint(8, 20), EVERY, 2 if n < 3 else 1, splits=3 if n < 3 else 1)
        a, b = (n, [0, 1], gs), (n, [0, 1], schedule(rng, gs))
        out += [(a, b), (b, a)]
    for n, m, p, q in ((0, 1, 0, 0), (1, 2, 1, 1), (1, 1, 0, 1), (2, 2, 3, 2), (0, 0, 0, 0), (0, 0, 64, 64), (0, 0, 64, 63)):
        out.append(((n, [0] * p, []), (m, [0] * q, [])))
    for bit in (0, 1, 31, 32, 63):  # blocks that the other side lacks, at low and high bits
        a = (1, [0] * 64, [one(X, 0), (MEASURE, 0, bit, 0, 0)])
        b = (1, [0] * 64, [one(H, 0), (MEASURE, 0, bit, 0, 0)])
        c = (1, [0] * 64, [one(H, 0), (MEASURE, 0, 63 - bit, 0, 0)])
        out += [(a, b), (b, a), (b, c), (c, b)]
    for bit in (32, 33, 63):  # the first difference in a store whose low word is 0
        store = [int(j == bit) for j in range(64)]
        a, b, c = (1, store, []), (1, store, [one(X, 0)]), (1, store, [one(H, 0), (MEASURE, 0, bit - 32, 0, 0)])
        out += [(a, b), (b, a), (a, c), (c, b)]
    return out


def numbers(c):
    n, store, gs = c
    return [0, n, len(store), len(store), *store, 5 * len(gs), *flat(gs)]


def for_rust(c):
    n, store, gs = c
    return text([n, len(store), *store, len(gs), *flat(gs)])


def main():
    rng = random.Random(SEED)
    todo = [p for p in pairs(rng) if all(channel_verdict(CEILINGS, n, len(s), s, flat(gs), 10**9, 10**9)[0] == 0 for n, s, gs in p)]
    lines, kinds = [], [0, 0, 0]
    for p, answer in zip(todo, ask([f"cmp {for_rust(a)} {for_rust(b)}" for a, b in todo])):
        words = answer[0].split()
        kind = ["same", "dimensions", "entry"].index(words[0])
        kinds[kind] += 1
        place = [0] * 14
        if kind == 2:
            bits = [] if words[1] == "-" else [int(b) for b in words[1]]
            low, high = (sum(b << j for j, b in enumerate(half)) for half in (bits[:32], bits[32:]))
            place = [low, high, *map(int, words[2:])]
        lines.append(text([0, *numbers(p[0]), *numbers(p[1]), 0, kind, *place]))
    print(len(lines), *(f"4 {line}" for line in lines), sep="\n")
    print(f"seed {SEED}: {len(lines)} pairs by the Rust: {kinds[0]} same, {kinds[1]} of other dimensions, {kinds[2]} that differ in an entry", file=sys.stderr)


if __name__ == "__main__":
    main()

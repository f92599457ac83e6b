"""Cases of pauli_channel.

A line: kind 18; source; qubits, bits; the lengths of result and work; how many bytes the store has, and these; how many words the nodes have, and these; the same of the operations;
verdict, index, checksums of result and work. The limits are the defaults, and each lent word holds its place mod 997, plus 1, before the call.

Source 0: the Rust was asked. The entries of blocks are then its own, and it refuses as the questions do; 1: the documents decide (pauli_cases.py). The order of records is document 01's:
the stores in the order of their first branches that are not 0, which are worked out below.
"""
import random
import sys

from ask import ask, blocks
from circuit_cases import BIG, over
from circuits import text
from pauli_cases import IF, INTO, MEASURE, PRODUCT, ROTATE, agrees, fives, flat, for_rust, nodes_of, operations_of, room, single, times, verdict
from rules import MAX_WEIGHT, OMEGA, ONE, ZERO, add, channel_words, checksum, mul, neg

KIND = 18
EVERY, HEAVY = range(8), (1, 2, 3, 5, 6, 7)
HALF = (1, 0, 0, 0, 1)
TURN = (0, 0, 1, 0, 0)  # i


# ---- branches
def axis_times(n, pauli, kraus):
    """A Pauli, times a matrix kept as {(row, column): scalar} without zeros."""
    turns, letters = pauli
    out = {}
    for (r, c), v in kraus.items():
        to = r
        for q, letter in enumerate(letters):
            mask, turn = 1 << (n - 1 - q), {"I": 0, "X": 0, "Y": 1, "Z": 0}[letter]
            if letter in "YZ" and r & mask:
                turn += 2
            if letter in "XY":
                to ^= mask
            turns += turn
        for _ in range(turns % 4):
            v = mul(v, TURN)
        out[to, c], turns = v, pauli[0]
    return out


def joined(n, pauli, own, turned, kraus):
    """own · 1 + turned · pauli, times a matrix."""
    out = {}
    for factor, part in ((own, kraus), (turned, axis_times(n, pauli, kraus))):
        for at, v in part.items():
            out[at] = add(out.get(at, ZERO), mul(factor, v))
    return {at: v for at, v in out.items() if v != ZERO}


def store_order(n, store, nodes, operations):
    """Stores in the order of their first surviving branches."""
    paulis = [(0, ("I",) * n)] + [single(n, q, letter) for q in range(n) for letter in "XZ"]
    for w in fives(nodes):
        paulis.append(single(n, w[1], "IXYZ"[w[0]]) if w[0] < PRODUCT else times((paulis[w[1]][0] + w[2], paulis[w[1]][1]), (paulis[w[3]][0] + w[4], paulis[w[3]][1])))
    now = [({(j, j): ONE for j in range(2**n)}, tuple(store), ())]
    for kind, at, turns, x, y in fives(operations):
        axis, after = (paulis[at][0] + turns, paulis[at][1]), []
        for kraus, st, made in now:
            if kind in (ROTATE, IF):
                if kind == ROTATE or made[y]:
                    kraus = joined(n, axis, mul(add(ONE, OMEGA[x]), HALF), mul(add(ONE, neg(OMEGA[x])), HALF), kraus)
                after.append((kraus, st, made))
            else:
                for outcome, turned in enumerate((HALF, neg(HALF))):
                    after.append((joined(n, axis, HALF, turned, kraus), st[:x] + (outcome,) + st[x + 1:] if kind == INTO else st, (*made, outcome)))
        now = after
    order = []
    for kraus, st, _ in now:
        if kraus and st not in order:
            order.append(st)
    return order


# ---- programs: qubits, bits, store, nodes, operations, and the words to spare in result and work
def sound(rng):
    def store(bits):
        return [rng.randrange(2) for _ in range(bits)]

    def axes(n, nodes):
        """Every axis that names a node, with the two phases that are its own."""
        for at in range(2 * n + 1 + len(nodes)):
            for turns in range(4):
                if verdict(n, 0, [], flat(nodes), [ROTATE, at, turns, 0, 0], BIG, BIG)[0] == 0:
                    yield at, turns

    for n, bits in ((0, 0), (0, 3), (1, 0), (2, 1), (3, 64), (4, 0)):  # no operations
        yield n, bits, store(bits), [], []
    for n, count in ((0, 3), (1, 14), (2, 14), (3, 7), (4, 1)):  # random ones
        for _ in range(count):
            bits = rng.choice([0, 1, 2, 3, 9]) if n < 3 else 1
            listed = nodes_of(rng, n, rng.randint(0, 9)) if n else [(PRODUCT, 0, 2 * rng.randrange(2), 0, 0)]
            todo = operations_of(rng, n, bits, listed, rng.randint(1, 10 if n < 3 else 4), rng.randint(0, [2, 4, 4, 2, 1][n]))
            yield n, bits, store(bits), listed, todo
    for n in (1, 2, 2):  # a hundred nodes, each a product with the one before it
        listed = nodes_of(rng, n, 2)
        while len(listed) < 100:
            listed.append((PRODUCT, 2 * n + len(listed), rng.randrange(4), rng.randrange(2 * n + 3), rng.randrange(4)))
        at, turns = rng.choice([(at, turns) for at, turns in axes(n, listed) if at == 2 * n + 100])
        yield n, 1, store(1), listed, [(ROTATE, at, turns, 1, 0), (INTO, at - 1, next(t for a, t in axes(n, listed) if a == at - 1), 0, 0), (ROTATE, 1, 0, 3, 0)]
    y = [(2, 0, 0, 0, 0), (PRODUCT, 1, 0, 2, 1), (PRODUCT, 2, 3, 1, 0)]
    for at, turns in axes(1, y):  # every axis with both of its phases, turned and measured
        yield 1, 1, store(1), y, [(ROTATE, 1, 0, rng.choice(HEAVY), 0), (ROTATE, at, turns, rng.choice(HEAVY), 0), (INTO, at, turns, 0, 0)]
    for eighths in EVERY:
        yield 1, 0, [], [], [(ROTATE, 1, 0, eighths, 0), (MEASURE, 2, 2, 0, 0), (IF, 1, 2, eighths, 0)]
    for outcome in range(4):  # a rotation on each of four outcomes, two of them hidden
        yield 1, 2, store(2), [], [(MEASURE, 1, 0, 0, 0), (INTO, 2, 0, 1, 0), (MEASURE, 1, 2, 0, 0), (INTO, 2, 0, 0, 0), (IF, 1, 0, 1, outcome), (IF, 2, 0, 3, outcome)]
    for count in (2, 3, 6):  # hidden measures alone, and one bit written again and again
        yield 1, 0, [], [], [(MEASURE, 1 + j % 2, 0, 0, 0) for j in range(count)]
        yield 1, 1, store(1), [], [(INTO, 1 + j % 2, 0, 0, 0) for j in range(count)]
    yield 2, 2, store(2), [], [(INTO, 2, 0, 0, 0), (INTO, 2, 2, 1, 0), (INTO, 2, 0, 1, 0)]  # branches that are 0
    for goal in (48, 50, 53, 55, 56, 56):  # heavy ones
        n = rng.choice([1, 1, 2])
        listed = nodes_of(rng, n, 5)
        todo = operations_of(rng, n, 2, listed, 4, 2)
        known = list(axes(n, listed))
        while True:
            weight = sum(2 if w[0] >= MEASURE else (0, 2, 1, 2, 0, 2, 1, 2)[w[3]] for w in todo)
            if weight == goal:
                break
            todo.append((ROTATE, *rng.choice(known), rng.choice((1, 3, 5, 7)) if goal - weight > 1 else 2, 0))
        yield n, 2, store(2), listed, todo


def refused(rng):
    """One word changed or a buffer too short, and what the questions refuse otherwise."""
    for _ in range(14):
        n, bits = rng.choice([1, 2]), rng.choice([0, 1])
        listed = nodes_of(rng, n, rng.randint(1, 4))
        words = flat(listed), flat(operations_of(rng, n, bits, listed, 4, 2))
        for _ in range(2):
            some = rng.choice(words)
            some[rng.randrange(len(some))] = rng.choice([1, 3, 4, 5, 7, 8, BIG, 2 * n + 1 + len(listed)])
        yield n, bits, [0] * bits, *words, 100, 100
    turned = [ROTATE, 1, 0, 1, 0]
    for n, bits, store, nodes, operations in ((1, 0, [], [9] * 4, []), (1, 0, [], [], [9] * 6), (5, 0, [], [], []), (1, 2, [0], [], turned), (1, 1, [2], [], turned),
                                              (1, 0, [], [], turned * (MAX_WEIGHT // 2 + 1)), (1, 0, [], [], [MEASURE, 1, 0, 0, 0] * 7),
                                              (1, 0, [], [], turned + [ROTATE, 1, 3, 1, 0]), (1, 0, [], [2, 0, 0, 0, 0], [MEASURE, 4, 0, 0, 0]),
                                              (1, 1, [0], [], [INTO, 1, 0, 0, 0, IF, 2, 0, 1, 1]), (1, 1, [0], [], turned + [INTO, 1, 0, 1, 0])):
        yield n, bits, store, nodes, operations, 3000, 3000
    for short in ((-1, 0), (0, -1), (-9, 40)):
        one = 1, 1, [1], [], turned + [INTO, 2, 0, 0, 0]
        yield *one, *(least + more for least, more in zip(room(*one), short))


def inputs(rng):
    for n, bits, store, listed, todo in sound(rng):
        one = n, bits, store, flat(listed), flat(todo)
        result, work = room(*one)
        yield *one, result + rng.choice([0, 1, 9]), work + rng.choice([0, 1, 9])
    yield from refused(rng)


def main():
    seed, verdicts, lines = 2009, {}, []
    todo = [(*one, verdict(*one)) for one in inputs(random.Random(seed))]
    commands = [for_rust(*one[:5]) for one in todo]
    said = iter(ask([c for c in commands if c]))
    for (n, bits, store, nodes, operations, result, work, due), command in zip(todo, commands):
        after, spent = [], []
        if command:
            answer = next(said)
            assert agrees(answer, due), (command, answer[0], due)
        if due[0] == 0:
            dim, cbits, by_store = blocks(answer)
            order = store_order(n, store, nodes, operations)
            assert sorted(order) == sorted(by_store) and (dim, cbits) == (2**n, bits), command
            after, spent = channel_words(dim, bits, order, by_store, dim * dim), [0] * room(n, bits, store, nodes, operations)[1]
        verdicts[due[0]] = verdicts.get(due[0], 0) + 1
        lines.append([KIND, 0 if command else 1, n, bits, result, work, len(store), *store, len(nodes), *nodes, len(operations), *operations, *due, checksum(over(result, after)), checksum(over(work, spent))])
    print(len(lines), *map(text, lines), sep="\n")
    print(f"seed {seed}: {len(lines)} programs, {sum(map(bool, commands))} of which the Rust was asked; by verdict {dict(sorted(verdicts.items()))}", file=sys.stderr)


main()

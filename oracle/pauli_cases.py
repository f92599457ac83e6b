"""Cases of judge_pauli.

A line: kind 17; source; qubits, bits; the lengths of result and work; how many bytes the store has, and these; how many words the nodes have, and these; the same of the operations;
verdict, index. The limits are the defaults.

Document 02's questions are asked below, with Paulis as a letter for each qubit. Source 0: the Rust was asked too, where its types hold the program, and takes it or refuses it as the
questions do, but for weight and buffers, which are not its own; 1: the documents decide.
"""
import random
import sys

from ask import ask, refusal
from circuit_cases import BIG
from circuits import text
from rules import CEILINGS, MAX_WEIGHT, channel_sizes, split

KIND = 17
ROTATE, IF, MEASURE, INTO = range(4)
PRODUCT = 4
MAX_NODES = 1024
# two letters' product: the letter, and how often i comes with it
TIMES = {("X", "Y"): ("Z", 1), ("Y", "Z"): ("X", 1), ("Z", "X"): ("Y", 1), ("Y", "X"): ("Z", 3), ("Z", "Y"): ("X", 3), ("X", "Z"): ("Y", 3)}


def times(p, q):
    """Of two Paulis: turns, letters."""
    turns, letters = p[0] + q[0], []
    for a, b in zip(p[1], q[1]):
        letter, turn = (b, 0) if a == "I" else (a, 0) if b == "I" else ("I", 0) if a == b else TIMES[a, b]
        turns += turn
        letters.append(letter)
    return turns % 4, tuple(letters)


def single(n, qubit, letter):
    return 0, tuple(letter if q == qubit else "I" for q in range(n))


def fives(words):
    return [tuple(words[i:i + 5]) for i in range(0, len(words) - len(words) % 5, 5)]


def node_fault(n, number, w):
    """The node of this number."""
    if w[0] > PRODUCT or (any(w[2:]) if w[0] < PRODUCT else w[2] > 3 or w[4] > 3):
        return 5
    if w[0] < PRODUCT:
        return 17 if w[1] >= n else 0
    return 17 if w[1] >= number or w[3] >= number else 0


def operation_fault(paulis, bits, made, w):
    kind, axis, turns, x, y = w
    if kind > INTO or turns > 3:
        return 5
    if {ROTATE: x > 7 or y > 0, IF: x > 7, MEASURE: x > 0 or y > 0, INTO: y > 0}[kind]:
        return 5
    if axis >= len(paulis) or (paulis[axis][0] + turns) % 2:
        return 18
    if kind == IF and y >= made:
        return 19
    return 3 if kind == INTO and x >= bits else 0


def verdict(n, bits, store, nodes, operations, result, work):
    if len(nodes) % 5 or len(operations) % 5:
        return (5, 0)
    listed, todo = fives(nodes), fives(operations)
    steps = len(todo) + 2 * n
    if steps > CEILINGS[3] or n > CEILINGS[0] or len(listed) > MAX_NODES:
        return (1, 0)
    paulis = [(0, ("I",) * n)] + [single(n, q, letter) for q in range(n) for letter in "XZ"]
    for i, w in enumerate(listed):
        if fault := node_fault(n, len(paulis), w):
            return (fault, i)
        paulis.append(single(n, w[1], "IXYZ"[w[0]]) if w[0] < PRODUCT else times((paulis[w[1]][0] + w[2], paulis[w[1]][1]), (paulis[w[3]][0] + w[4], paulis[w[3]][1])))
    made = 0
    for i, w in enumerate(todo):
        if fault := operation_fault(paulis, bits, made, w):
            return (fault, i)
        made += w[0] in (MEASURE, INTO)
    if len(store) != bits or any(b > 1 for b in store):
        return (4, 0)
    named = 1 + max([2 * n] + [w[1] for w in todo]) if n or todo else 0
    written = len({w[3] for w in todo if w[0] == INTO})
    b, v, d = 2**made, 2**min(made, written), 2**n
    if bits > CEILINGS[5] or b > CEILINGS[4] or v * d**4 + (3 * b + named + 8) * d * d > CEILINGS[1] or (2 * steps * b + named) * d**3 + b * d**4 > CEILINGS[2]:
        return (1, 0)
    if sum(2 if w[0] in (MEASURE, INTO) else (0, 2, 1, 2, 0, 2, 1, 2)[w[3]] for w in todo) > MAX_WEIGHT:
        return (7, 0)
    return (8, 0) if result < channel_sizes(n, split(made, written))[0] or work < (2 * b + named + 2) * (5 * d * d + 3) else (0, 0)


# ---- programs
def nodes_of(rng, n, count):
    out = []
    for i in range(count):
        if rng.random() < 0.4:
            out.append((rng.randrange(4), rng.randrange(n), 0, 0, 0))
        else:
            out.append((PRODUCT, rng.randrange(2 * n + 1 + i), rng.randrange(4), rng.randrange(2 * n + 1 + i), rng.randrange(4)))
    return out


def operations_of(rng, n, bits, listed, count, splits):
    out, made, words = [], 0, [w for node in listed for w in node]
    while len(out) < count:
        kind = rng.choice([ROTATE, ROTATE, IF, MEASURE, INTO])
        if kind in (MEASURE, INTO) and made >= splits or kind == IF and not made or kind == INTO and not bits:
            continue
        axis = rng.randrange(2 * n + 1 + len(listed))
        for turns in range(4):  # of two turns one is real
            w = (kind, axis, turns, rng.randrange(8) if kind < MEASURE else rng.randrange(bits) if kind == INTO else 0, rng.randrange(made) if kind == IF else 0)
            if verdict(n, bits, [0] * bits, words, [x for o in out for x in o] + list(w), 10**9, 10**9)[0] != 18:
                break
        out.append(w)
        made += kind >= MEASURE
    return out


def flat(rows):
    return [w for row in rows for w in row]


def room(n, bits, store, nodes, operations):
    """The least result and work that are accepted; any where nothing is."""
    if verdict(n, bits, store, nodes, operations, 10**9, 10**9)[0]:
        return 10**9, 10**9
    least = []
    for at in (0, 1):
        low, high = 0, 10**9
        while low < high:
            middle = (low + high) // 2
            taken = verdict(n, bits, store, nodes, operations, *((middle, 10**9) if at == 0 else (10**9, middle)))[0] == 0
            low, high = (low, middle) if taken else (middle + 1, high)
        least.append(low)
    return tuple(least)


def inputs(rng):
    """qubits, bits, store, nodes, operations, result, work."""
    full = (10**9, 10**9)
    for n, bits, nodes, operations in ((0, 0, [], []), (1, 1, [], []), (5, 0, [], []), (6, 0, [], []), (BIG, 0, [], []), (0, 64, [], []), (0, 65, [], []), (4, 2, [], [])):
        yield n, bits, [0] * bits if bits < 99 else [], nodes, operations, *full
    for _ in range(60):  # sound ones
        n, bits = rng.choice([1, 1, 2, 2, 3]), rng.choice([0, 1, 2])
        listed = nodes_of(rng, n, rng.randint(0, 5))
        todo = operations_of(rng, n, bits, listed, rng.randint(0, 6), rng.randint(0, 3))
        one = n, bits, [rng.randrange(2) for _ in range(bits)], flat(listed), flat(todo)
        result, work = room(*one)
        yield *one, *rng.choice([(result, work), (result, work), (result - 1, work), (result, work - 1), full])
        for _ in range(2):  # one word changed, in nodes or operations
            nodes, operations = list(one[3]), list(one[4])
            words = rng.choice([w for w in (nodes, operations) if w] or [[0]])
            words[rng.randrange(len(words))] = rng.choice([0, 1, 2, 3, 4, 5, 7, 8, BIG, 2 * n, 2 * n + 1, 2 * n + 1 + len(listed)])
            yield n, bits, one[2], nodes, operations, *full
    y = [2, 0, 0, 0, 0]
    for axis in range(5):  # every axis of one qubit and one node with every phase, and what names no node
        for turns in range(5):
            yield 1, 1, [0], y, [INTO, axis, turns, 0, 0], *full
            yield 1, 1, [0], [PRODUCT, 1, turns % 4, 2, axis % 4], [ROTATE, 3, 0, 7, 0], *full
    for eighths in range(9):
        yield 1, 0, [], [], [ROTATE, 1, 0, eighths, 0], *full
    for words in ([9] * 4, [9] * 6, [0, 0, 0, 0, 0, 1]):
        yield 1, 0, [], words, [], *full
        yield 1, 0, [], [], words, *full
    for outcome in (0, 1, 2, BIG):  # outcomes that are made, and not yet
        measured = [MEASURE, 1, 0, 0, 0]
        yield 1, 0, [], [], measured + [IF, 2, 0, 1, outcome] + measured, *full
    for bit in (0, 1, 2, 63, 64, BIG):
        yield 1, 2, [0, 1], [], [INTO, 1, 0, bit, 0], *full
    for store in ([], [0], [0, 0, 0], [0, 2], [1, 255]):
        yield 1, 2, store, [], [INTO, 1, 0, 1, 0], *full
    for count in (28, 29):  # weights 56 and 58, and 57
        yield 1, 0, [], [], [ROTATE, 1, 0, 1, 0] * count, *full
        yield 1, 0, [], [], [ROTATE, 1, 0, 1, 0] * (count - 1) + [ROTATE, 1, 0, 2, 0] * 1, *full
        yield 1, 0, [], [], [ROTATE, 1, 0, 3, 0] * (count - 1) + [ROTATE, 1, 0, 6, 0] * 2, *full
    for splits in (6, 7):  # branches
        yield 1, 1, [0], [], [MEASURE, 1, 0, 0, 0] * (splits - 1) + [INTO, 2, 0, 0, 0], *full
        yield 2, 7, [0] * 7, [], [w for b in range(splits) for w in (INTO, 1, 0, b, 0)], *full
    for count in (1022, 1023):  # the most operations of one qubit
        yield 1, 0, [], [], [ROTATE, 0, 0, 0, 0] * count, *full
    for count in (1024, 1025):  # the most nodes
        yield 1, 0, [], [0, 0, 0, 0, 0] * count, [ROTATE, 2 + count, 0, 4, 0], *full


# ---- the Rust
def for_rust(n, bits, store, nodes, operations):
    """The driver's command, or None where its types do not hold the program."""
    listed, todo = fives(nodes), fives(operations)
    if len(nodes) % 5 or len(operations) % 5 or n > 5 or len(store) != bits or bits > 64 or any(b > 1 for b in store) or len(todo) > 100 or len(listed) > 100:
        return None
    made = 0
    for i, w in enumerate(listed):
        if node_fault(n, 2 * n + 1 + i, w):
            return None
    for w in todo:
        if operation_fault([(0, ())] * (2 * n + 1 + len(listed)), bits, made, w[:2] + (0,) + w[3:]) or w[2] > 3:
            return None
        made += w[0] in (MEASURE, INTO)
    nodes = [(0, w[0], w[1], 0, 0) if w[0] < PRODUCT else (1, *w[1:]) for w in listed]
    operations = [({ROTATE: 0, INTO: 1, MEASURE: 2, IF: 3}[w[0]], *w[1:]) for w in todo]
    return f"pbc {text([n, bits, *store, len(nodes), *flat(nodes), len(operations), *flat(operations)])}"


def agrees(said, due):
    """Whether what the Rust said is this verdict."""
    if said[0].startswith("op error"):
        return due[0] == 18
    return due[0] in (0, 7, 8) if refusal(said) is None else refusal(said) == due


def main():
    seed, verdicts = 2026, {}
    todo = [(*one, verdict(*one)) for one in inputs(random.Random(seed))]
    commands = [for_rust(*one[:5]) for one in todo]
    said = iter(ask([c for c in commands if c]))
    lines = []
    for (n, bits, store, nodes, operations, result, work, due), command in zip(todo, commands):
        if command:
            answer = next(said)
            assert agrees(answer, due), (command, answer[0], due)
        verdicts[due[0]] = verdicts.get(due[0], 0) + 1
        lines.append([KIND, 0 if command else 1, n, bits, result, work, len(store), *store, len(nodes), *nodes, len(operations), *operations, *due])
    print(len(lines), *map(text, lines), sep="\n")
    print(f"seed {seed}: {len(lines)} programs, {sum(map(bool, commands))} of which the Rust was asked; by verdict {dict(sorted(verdicts.items()))}", file=sys.stderr)


if __name__ == "__main__":
    main()

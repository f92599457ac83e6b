"""Cases of compare_list.

A line: kind 24; source; how many pairs; the lengths of left, right, work, answers and scalars; the high and the low 32 bits of the allowance; how many words the pairs have, and
these; how many bytes their stores have, and these; verdict, index, total, the checksums of left, right, work and scalars, and each word of the answers.

Each lent word of left, right, work and scalars holds its place mod 997, plus 1, before the call, and each of the answers 7. The limits are the defaults. Source 0: some pair is
compared, and what is found is what the Rust's compare finds in the Rust's channels; 1: the documents decide. The rule of lists is document 02's, worked out below pair by pair.
"""
import random
import sys

from ask import ask, refusal
from circuit_cases import BAD_GATES, BIG, expressible, over
from circuits import PLAIN, circuit, flat, text
from compare_cases import for_rust, rewrite, spoil
from rules import CEILINGS, CH, H, MAX_WEIGHT, MEASURE, RESET, X, channel_sizes, channel_verdict, checksum, counts, gates

KIND = 24
MAX_PAIRS = 32
ANSWER, SCALARS = 7, 10
EVER = 2**64 - 1
BUFFER = 2600
EVERY = PLAIN + [MEASURE, MEASURE, RESET]


# ---- circuits: qubits, store (a byte for each bit), gate words
def small(rng, n, bits, length=4):
    gs = circuit(rng, n, rng.randint(0, length), EVERY, bits, splits=rng.randint(0, 2 if n < 2 else 1))
    return n, [rng.randrange(2) for _ in range(bits)], flat(gs)


def terms(c):
    """Question 8's."""
    n, _, words = c
    b, d = 2**counts(gates(words))[0], 2**n
    return 2 * (len(words) // 5) * b * d**3 + b * d**4


def cost(pair):
    return sum(map(terms, pair))


def pair_of(rng, n=None, length=4):
    """The same circuit again, rewritten or with a change, or another."""
    n, bits = rng.choice([0, 1, 1, 1, 2]) if n is None else n, rng.choice([0, 1, 1, 2])
    left = small(rng, n, bits, length)
    gs = gates(left[2])
    way = rng.randrange(5) if n else 4
    if way == 0:
        return left, left
    if way == 1:
        return left, (n, left[1], flat(rewrite(rng, gs, n)))
    if way == 2:
        return left, (n, left[1], flat(spoil(rng, gs, n, bits)))
    return left, small(rng, rng.choice([n, n, 1]), rng.choice([bits, bits, 1]), length)


def faulty(rng):
    """A circuit that is refused."""
    n, store, words = small(rng, 1, 1)
    return rng.choice([(n, store, words + list(rng.choice(BAD_GATES))), (n, [2], words), (n, [BIG % 256], words), (n, store, words + [X]), (6, [], []),
                       (1, [], [H, 0, 0, 0, 0] * (MAX_WEIGHT + 1)), (1, [0] * 65, []), (2, [0], [H, 0, 0, 0, 0] + [MEASURE, 0, 0, 0, 0] * 4), (n, store, [CH, 0, 0, 0, 0])])


# ---- the words of a list
def words_of(pairs):
    return [w for left, right in pairs for w in [left[0], len(left[1]), len(left[2]), right[0], len(right[1]), len(right[2]), *left[2], *right[2]]]


def bytes_of(pairs):
    return [b for pair in pairs for c in pair for b in c[1]]


def read_pairs(count, words, stores):
    """The pairs, or the place of the first that is not there."""
    pairs = []
    for place in range(count):
        head, words = words[:6], words[6:]
        if len(head) < 6 or head[2] + head[5] > len(words) or head[1] + head[4] > len(stores):
            return place
        pair = []
        for n, bits, size in (head[:3], head[3:]):
            pair.append((n, stores[:bits], words[:size]))
            words, stores = words[size:], stores[bits:]
        pairs.append(tuple(pair))
    return count if words or stores else pairs


# ---- what is asked: count, lengths of the five buffers, allowance, words, bytes
def asked(pairs, allowance, rooms=(BUFFER, BUFFER, BUFFER), places=None, spare=0):
    count = len(pairs)
    return count, (*rooms, *(places or (ANSWER * count + spare, SCALARS * count + spare))), allowance, words_of(pairs), bytes_of(pairs)


def inputs(rng):
    for count in (0, 1, 2, 31, 32, 33):  # every edge of the allowance
        pairs = [pair_of(rng, rng.choice([0, 1, 1]), 2 if count > 2 else 4) for _ in range(count)]
        total = sum(map(cost, pairs))
        for allowance in dict.fromkeys([0, max(total - 1, 0), total, total + 1, EVER]):
            if count < 31 or allowance != total + 1:
                yield asked(pairs, allowance, (200, 200, 200), spare=2 if count < 32 else 0)
    for _ in range(4):  # what is spent after each pair, and one less: the dear ones are passed over, later ones served
        pairs = [pair_of(rng) for _ in range(4)]
        spent = [sum(map(cost, pairs[:i])) for i in range(1, 5)]
        for s in spent:
            yield asked(pairs, s)
            yield asked(pairs, s - 1)
    for allowance in (0, EVER):  # refused: left, right, both, between pairs that are compared
        for _ in range(6):
            bad, worse, (good, other) = faulty(rng), faulty(rng), pair_of(rng)
            yield asked([(bad, good), (good, bad), (bad, worse), (good, other)], allowance)
    good = pair_of(rng, 1)
    for c in good:  # buffers that fit one circuit exactly, or lack a word
        result, work = channel_sizes(c[0], gates(c[2]))
        for rooms in ((result, result, work), (result - 1, result, work), (result, result - 1, work), (result, result, work - 1), (0, 0, 0)):
            yield asked([(c, c), good], EVER, rooms)
    for count in (0, 1, 2, 32):  # places that are too few, one after the other; more than are asked for
        pairs = [pair_of(rng, 0, 1) for _ in range(count)]
        a, s = ANSWER * count, SCALARS * count
        for places in ((a - 1, s), (a, s - 1), (0, 0), (a + 3, s + 5)):
            if min(places) >= 0:
                yield asked(pairs, EVER, (40, 40, 40), places)
    pairs = [pair_of(rng), pair_of(rng, 1), pair_of(rng, 1)]
    words, stores = words_of(pairs), bytes_of(pairs)
    first = 6 + len(pairs[0][0][2]) + len(pairs[0][1][2])
    rooms = (BUFFER, BUFFER, BUFFER, 21, 30)
    for count, ws, bs in ((4, words, stores), (2, words, stores), (3, words[:-1], stores), (3, words + [0], stores), (3, words, stores + [0]), (3, words, stores[:-1]),
                          (3, words[:3], stores), (3, [], []), (3, words[:first], stores), (3, words[:first + 5], stores), (0, [0], []), (0, [], [0]), (1, [0] * 5, []),
                          (1, [0] * 6, []), (1, [0] * 7, []), (1, [1, 1, 0, 1, 1, 0], [0])):
        yield count, rooms, EVER, ws, bs
    for at in (1, 2, 4, 5, first + 1, first + 2, first + 5):  # counts that reach behind the end
        for odd in (BIG, 2**31, len(words)):
            yield 3, rooms, EVER, words[:at] + [odd] + words[at + 1:], stores
    yield 33, (0, 0, 0, 0, 0), 0, [], []  # 24 before 5 before 8
    yield BIG, rooms, EVER, words, stores
    yield 3, (0, 0, 0, 0, 0), EVER, words[:-1], stores
    yield 3, (0, 0, 0, 0, 0), EVER, words, stores
    for _ in range(40):  # lists at random
        pairs = [tuple(faulty(rng) if rng.random() < 0.1 else c for c in pair_of(rng)) for _ in range(rng.randint(1, 6))]
        total = sum(cost(p) for p in pairs if all(c[0] < 4 for c in p))
        yield asked(pairs, rng.randint(0, total), spare=rng.randint(0, 3))


def judged(c, result, work):
    n, store, words = c
    return channel_verdict(CEILINGS, n, len(store), store, words, result, work)


class Rust:
    """What the Rust says of circuits and pairs: asked all at once, then looked up."""

    def __init__(self):
        self.due, self.said = {}, None

    def of(self, command):
        if self.said is None:
            self.due[command] = None
            return None
        return self.said[command]

    def answer(self):
        self.said = dict(zip(self.due, ask(list(self.due))))

    def refuses(self, c, verdict):
        """Where the Rust can be asked, it gives the same verdict: those of buffers and of weight are not its own."""
        n, store, words = c
        if verdict[0] in (1, 2, 3, 4) and expressible(words, store):
            said = self.of(f"chanx {text(CEILINGS)} {n} {len(store)} {len(store)} {text(store)} {len(words) // 5} {text(words)}")
            assert said is None or refusal(said) == verdict, (c, verdict, said)

    def compares(self, pair):
        """Reply, place and scalars."""
        said = self.of("cmp " + " ".join(for_rust((n, store, gates(words))) for n, store, words in pair))
        if said is None:
            return 100, [0] * 3, [0] * 10
        found = said[0].split()
        if found[0] != "entry":
            return {"same": 100, "dimensions": 101}[found[0]], [0] * 3, [0] * 10
        store = sum(1 << j for j, b in enumerate(found[1]) if b == "1")
        return 102, [store, *map(int, found[2:4])], [*map(int, found[4:])]


def answered(rust, pairs, allowance, left, right, work):
    """Total, answers, scalars, and whether the Rust compared a pair."""
    spent, answers, scalars, by_rust = 0, [], [], False
    for pair in pairs:
        verdicts = [judged(c, room, work) for c, room in zip(pair, (left, right))]
        for c, v in zip(pair, verdicts):
            rust.refuses(c, v)
        refused = [(reply, *v) for reply, v in zip((105, 106), verdicts) if v[0]]
        found = [0] * 10
        if refused:
            reply, number, index = refused[0]
            answers += [reply, 0, 0, 0, 0, number, index]
        elif spent + cost(pair) > allowance:
            answers += [107, cost(pair), 0, 0, 0, 0, 0]
        else:
            reply, place, found = rust.compares(pair)
            answers += [reply, cost(pair), *place, 0, 0]
            spent += cost(pair)
            by_rust = True
        scalars += found
    return spent, answers, scalars, by_rust


def case(rust, count, lengths, allowance, words, stores):
    left, right, work, places, room = lengths
    pairs = read_pairs(count, words, stores) if count <= MAX_PAIRS else None
    verdict, total, answers, scalars, source = (0, 0), 0, [], [], 1
    if count > MAX_PAIRS:
        verdict = (24, 0)
    elif isinstance(pairs, int):
        verdict = (5, pairs)
    elif places < ANSWER * count or room < SCALARS * count:
        verdict = (8, 0)
    else:
        total, answers, scalars, by_rust = answered(rust, pairs, allowance, left, right, work)
        source = 0 if by_rust else 1
    buffers = [over(n, [0] * n if verdict[0] == 0 else []) for n in (left, right, work)]
    sums = [checksum(b) for b in (*buffers, over(room, scalars))]
    return [KIND, source, count, *lengths, allowance >> 32, allowance % 2**32, len(words), *words, len(stores), *stores, *verdict, total, *sums, *answers, *[7] * (places - len(answers))]


def main():
    seed = 2026
    todo, rust = list(inputs(random.Random(seed))), Rust()
    for one in todo:  # what is to be asked, then the answers
        case(rust, *one)
    rust.answer()
    lines = [case(rust, *one) for one in todo]
    print(len(lines), *map(text, lines), sep="\n")
    by_rust = sum(line[1] == 0 for line in lines)
    print(f"seed {seed}: {len(lines)} lists, {by_rust} with pairs that the Rust compares, of {len(rust.said)} that were asked", file=sys.stderr)


main()

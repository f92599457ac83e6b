"""Cases of compare, classical_blocks, povm_effects and the lookup on channels given by their words, sound and damaged.

A line: kind 5, source; the left and the right words, each as length, number of words that are not 0, place and value of these; the length of the effects' buffers; the
store to look for, its length and bytes. Then the answers: compare's verdict, 0 same, 1 dimensions, 2 an entry, the store's two words, row, column, both
scalars; the verdict of classical_blocks of the left and the checksum of its buffer (whose words hold their place mod 997, plus 1, before the call), the same of
povm_effects; length and checksum of the part that the lookup in the left hands back. Source 0: compare's answer and the effects are the Rust's, for povm_effects
with rows and columns exchanged; 1: document 01 refuses.
"""
import random
import sys

from ask import ask, blocks
from circuits import text
from rules import (ENTRY, EXPONENT, HEAD, HEADER, MAX_EXPONENT, MAX_NUMERATOR, ONE, block_at, words_verdict, channel_words, checksum, effects_fit, lowest, read_channel,
                   record_size, shared_fits)

SEED = 4096
CASES = 320
TOP = MAX_NUMERATOR


def pattern(length):
    return [i % 997 + 1 for i in range(length)]


def numerators(rng):
    size = rng.choice([1, 3, 100, TOP])
    return [rng.choice([0, rng.randint(-size, size), size, -size]) for _ in range(4)]


def over(e, numbers):
    """Numerators over 2^e as scalars in lowest form, without zeros."""
    return {at: lowest((*n, e)) for at, n in numbers.items() if any(n)}


def random_block(rng, width):
    """Entries whose numerators are in range at the exponent that they share."""
    if rng.random() < 0.03:
        return {}
    e = rng.choice([0, 0, 1, 5, MAX_EXPONENT])
    numbers = {(rng.randrange(width), rng.randrange(width)): numerators(rng) for _ in range(rng.randint(1, 4))}
    if width > 1 and rng.random() < 0.4:  # traced entries
        d = {4: 2, 16: 4}[width]
        r, c = rng.randrange(d), rng.randrange(d)
        for o in range(d):
            numbers[o * d + r, o * d + c] = rng.choice([[1, 0, 0, 0], [TOP, 0, 0, 0], [-TOP, 0, 0, 0], [TOP - 1, 0, 0, 0], [1, 0, 0, 3]])
    if not any(x % 2 for n in numbers.values() for x in n):
        rng.choice(list(numbers.values()))[rng.randrange(4)] = rng.choice([1, -1, TOP - 1])
    return over(e, numbers)


def random_channel(rng):
    dim = rng.choice([1, 1, 1, 2, 2, 4])
    bits = rng.choice([0, 1, 2, 2, 3, 33, 64])
    stores = list({tuple(rng.randrange(2) if j in (0, 1, bits - 1) else 0 for j in range(bits)) for _ in range(rng.randint(0, 4 if dim < 4 else 1))})
    stores.sort()
    rng.shuffle(stores)
    by_store = {s: random_block(rng, dim * dim) for s in stores}
    return channel_words(dim, bits, stores, by_store, dim * dim) + [rng.choice([0, 9])] * rng.choice([0, 0, 1, 5])


def variant(rng, words):
    """A channel that may differ from a sound one in an entry, a store, a block or the records' order."""
    dim, bits, chain = read_channel(words)
    by_store = {s: block_at(words, dim, at) for s, at in chain}
    stores = [s for s, _ in chain]
    kind = rng.randrange(5)
    if kind == 0 and stores:
        del by_store[stores.pop(rng.randrange(len(stores)))]
    elif kind == 1 and stores:
        s = rng.choice(stores)
        at, given = (rng.randrange(dim * dim), rng.randrange(dim * dim)), rng.choice([ONE, (3, 0, 0, 0, 1)])
        by_store[s] = {**by_store[s], at: given if shared_fits({**by_store[s], at: given}) else ONE}
    elif kind == 2 and stores:
        by_store[stores[-1]] = {}
    rng.shuffle(stores)
    return channel_words(dim, bits, stores, by_store, dim * dim)


def damage(rng, words):
    """A word changed, a block at another exponent, or the end cut off."""
    out = list(words)
    size = record_size(words[0]**2)
    records = [HEADER + j * size for j in range(words[2])]
    choices = ["header", "cut"] + ["chain", "store", "exponent", "entry"] * (2 if records else 0)
    kind = rng.choice(choices)
    if kind == "header":
        at = rng.randrange(4)
        out[at] = rng.choice([0, 1, 2, 3, 4, 5, 8, 16, 32, 64, 65, -1, size, 4 + size, 2**62, out[at] + 1, out[at] - 1])
    elif kind == "cut":
        out = out[:rng.choice([0, 1, 3, 4, len(out) - 1, max(0, len(out) - size)])]
    elif kind == "chain":
        at = rng.choice([3] + records)
        out[at] = rng.choice([0, 3, 4, 5, -1, 4 + size, 4 + 2 * size, 2**40, *records])
    elif kind == "store":
        at = rng.choice(records) + rng.choice([1, 2])
        out[at] = rng.choice([-1, 0, 1, 2, 4, 2**31, 2**32 - 1, 2**32, out[at] ^ 1])
    elif kind == "exponent":
        at = rng.choice(records)
        if rng.random() < 0.4:
            out = at_higher(out, at)
        else:
            out[at + EXPONENT] = rng.choice([-1, 0, 1, MAX_EXPONENT, MAX_EXPONENT + 1, out[at + EXPONENT] + 1, 2**32, 2**61])
    else:
        at = rng.choice(records) + HEAD + rng.randrange(size - HEAD)
        out[at] = rng.choice([TOP + 1, -TOP - 1, TOP, -TOP, 1, 2, 0, 2**62])
    return out


def at_higher(words, at):
    """The block of the record at `at` with the same entries over an exponent that is one too large, where the words hold the numerators."""
    out = list(words)
    out[at + EXPONENT] += 1
    for j in range(at + HEAD, at + record_size(words[0]**2)):
        out[j] = 2 * out[j] if abs(out[j]) <= TOP else out[j]
    return out


def for_rust(words):
    dim, bits, chain = read_channel(words)
    out = [dim, bits, len(chain)]
    for store, at in chain:
        block = block_at(words, dim, at)
        out += [*store, len(block), *(x for (r, c), s in block.items() for x in (r, c, *s))]
    return text(out)


def lookup(rng, words, store=None):
    """A store to look for, given or drawn, and the part that is handed back."""
    sound = read_channel(words)
    if sound is None and store is not None:
        return store, []
    if sound is None:
        bits = rng.choice([0, 1, 2])
        return [rng.randrange(2) for _ in range(bits)], []
    dim, bits, chain = sound
    refused = words_verdict(words) != 0
    if store is None:
        store = list(rng.choice(chain)[0]) if chain and rng.random() < 0.7 else [rng.randrange(2) for _ in range(bits)]
        if rng.random() < 0.15:
            store = rng.choice([store + [0], store[:-1], [2] + store[1:], [255] * len(store)])
    for s, at in chain:
        if list(s) == store and not refused:
            return store, words[at + EXPONENT:at + record_size(dim * dim)]
    return store, []


def one_record(bits, chain, low=0, high=0, count=1, spare=()):
    """A channel of dimension 1 with one record, whose entry is 1."""
    return [1, bits, count, chain, 0, low, high, 0, *ONE[:4], *spare]


def edges():
    """Pairs of channels with a store to look for, each with one thing at or past its edge."""
    good, half = one_record(64, 4), (1, 0, 0, 0, 1)
    for bad in (one_record(65, 4), one_record(2**32 + 1, 4), one_record(-1, 4),  # 64 bits at most
                one_record(64, 4, 2**32), one_record(64, 4, 0, 2**32), one_record(64, 4, -1), one_record(64, 4, 0, -1),  # store words of 32 bits
                one_record(64, 5, 0, 0, 1, [0]), one_record(64, 3),  # a chain that begins beside a record
                one_record(64, 4, 0, 0, 2), one_record(64, 4, 0, 0, 2, [0] * 8), one_record(64, 4, 0, 0, 0)):  # more records, or fewer, than there are
        yield bad, good, [0] * 64
        yield good, bad, [0] * 64
    two = [1, 64, 2, 4, 12, 0, 0, 0, *ONE[:4], 0, 1, 0, 0, *ONE[:4]]
    for at, word in ((4, 13), (4, 11), (3, 5), (2, 3), (2, 1)):  # a chain that goes on beside a record; a count past the length, or short of the chain
        bad = [*two, 0, 0]
        bad[at] = word
        yield bad, two, [0] * 64
        yield two, bad, [0] * 64
    yield two[:-1], two, [0] * 64
    yield one_record(65, 4), one_record(65, 4), [0] * 65
    stores = [(0, 0), (0, 1), (1, 0), (1, 1)]
    four = channel_words(1, 2, stores, {s: {(0, 0): ONE} for s in stores}, 1)
    for store in ([2, 0], [0, 2], [1, 2], [3, 1], [2, 2], [0, 0], [1, 1]):  # bytes other than 0 and 1
        yield four, four, store
    for bit in (32, 33, 63):  # a difference in a store whose low word is 0
        store = [int(j == bit) for j in range(64)]
        here, there = (channel_words(1, 64, [tuple(store)], {tuple(store): {(0, 0): s}}, 1) for s in (ONE, half))
        yield here, there, store
        yield there, here, store


def exponents():
    """Pairs of channels of one block with its exponent or its numerators at or past an edge, and a store to look for."""

    def channel(dim, e, numbers):
        """Numerators over 2^e as they are, whether they share that exponent or not; `numbers` by place."""
        words = [dim, 0, 1, HEADER, 0, 0, 0, e] + [0] * (ENTRY * dim**4)
        for at, n in numbers.items():
            words[HEADER + HEAD + at] = n
        return words

    for dim in (1, 2):
        last = ENTRY * dim**4 - 1
        one, half = channel(dim, 0, {0: 1}), channel(dim, 1, {0: 1})
        edge = []
        for e in (-1, 0, 1, MAX_EXPONENT, MAX_EXPONENT + 1):  # all numerators even; an odd one in each numerator of an entry, or in the last entry
            edge += [channel(dim, e, numbers) for numbers in ({0: 2, last: -4}, *({0: 2, j: 3} for j in ((1, 2, 3) if dim == 1 else (last,))), {last: 1})]
        for n in (TOP, TOP + 1, -TOP, -TOP - 1):  # in each numerator, alone and beside an odd one
            edge += [channel(dim, 0, {j: n}) if j % 2 else channel(dim, MAX_EXPONENT, {last - j: n, (last + 1 - j) % (last + 1): 1}) for j in range(4)]
        for i, words in enumerate(edge):
            yield (words, one, []) if i % 2 else (half, words, [])
        for e, numbers in ((0, {0: 1}), (1, {0: 1, last: 6}), (MAX_EXPONENT - 1, {last: TOP // 2 - 1, 0: -TOP // 2})):  # equal channels, one of them at an exponent that is too large
            words = channel(dim, e, numbers)
            yield words, words, []
            yield at_higher(words, HEADER), words, []
            yield words, at_higher(words, HEADER), []
            yield at_higher(words, HEADER), at_higher(words, HEADER), []
    # blocks of other exponents: their words differ from the first on, their entries later; compare finds entries
    for j in (8, 4 * 5 + 3, 63):
        whole = channel(2, 0, {0: 1, 4: 3, j: 1})
        for e in (1, MAX_EXPONENT):
            parts = channel(2, e, {0: 2**e, 4: 2**(e - 1) * 6 if e < MAX_EXPONENT else 2**e, j: 1})
            yield whole, parts, []
            yield parts, whole, []
    # effects: sums that leave the range and come back by an even numerator, alone and beside an odd one in the same effect, in the block only, at its other end
    first, second, other, apart = 0, 4 * (2 * 4 + 2), 4 * (4 + 1), 4 * 3  # entries (0, 0), (2, 2) and (1, 1), which are traced, and (0, 3), which is not
    for numbers in ({first: TOP, second: TOP}, {first: TOP, second: TOP, other: 1}, {first: TOP, second: TOP, apart: 1}, {first: -TOP, second: -TOP, other: 1}, {first: TOP, second: -TOP, other: 1},
                    {first: TOP - 1, second: 1, other: 1}, {first: TOP, second: 2, other: 3}, {first: TOP, second: 2, apart: 3}, {first: TOP, second: 1, other: 1}):
        for e in (1, MAX_EXPONENT):
            yield channel(2, e, numbers), one, []


def zero_blocks():
    """Pairs of channels with blocks of zeros, in each place of the chain and on each side, alone and beside other faults before and behind them; and a store to look for."""
    stores = [(0, 0), (1, 0), (1, 1)]
    size = {1: record_size(1), 2: record_size(4)}

    def channel(dim, zeros):
        """Records in another order than the chain's, those at the places `zeros` of the chain with no entry."""
        blocks = {s: {} if j in zeros else {(0, 0): ONE, (dim - 1, dim - 1): ONE} for j, s in enumerate(stores)}
        return channel_words(dim, 2, stores[1:] + stores[:1], blocks, dim * dim)

    def spoilt(words, at, value):
        return [*words[:at], value, *words[at + 1:]]

    for dim in (1, 2):
        sound = channel(dim, ())
        for zeros in ((0,), (1,), (2,), (0, 2), (0, 1, 2)):
            blank = channel(dim, zeros)
            for pair in ((blank, sound), (sound, blank), (blank, blank), (blank, channel(3 - dim, ())), (channel(3 - dim, ()), blank)):
                yield *pair, list(stores[zeros[0]])
            # the last word of a record, its exponent, a store, a chain that goes on, a header: beside the zero blocks, on their side and on the other
            records = [HEADER + j * size[dim] for j in range(3)]
            for at, value in (*((r + size[dim] - 1, TOP + 1) for r in records), (records[0] + EXPONENT, 1), *((r + 2, 1) for r in records), (records[1], records[2]), (2, 4)):
                faulty = spoilt(blank, at, value)
                yield faulty, sound, list(stores[0])
                yield sound, faulty, list(stores[0])
                if at == records[2] + size[dim] - 1:
                    yield faulty, blank, list(stores[0])
                    yield blank, faulty, list(stores[0])
        for store in stores:  # an entry that is not 0 in a numerator other than the first
            for part in range(4):
                words = channel(dim, (0, 1, 2))
                for r in range(3):
                    words = spoilt(words, HEADER + r * size[dim] + size[dim] - ENTRY + part, 1)
                yield words, words, list(store)


def sparse(words):
    marks = [(i, w) for i, w in enumerate(words) if w]
    return [len(words), len(marks), *(x for m in marks for x in m)]


def main():
    rng = random.Random(SEED)
    todo = []
    for j in range(CASES):
        left = random_channel(rng)
        right = variant(rng, left) if rng.random() < 0.75 else random_channel(rng)
        if j % 2:
            left, right = rng.choice([(damage(rng, left), right), (left, damage(rng, right)), (damage(rng, left), damage(rng, right))])
        todo.append((left, right))
    given = [*edges(), *zero_blocks(), *exponents()]
    wanted = [store for *_, store in given]
    todo += [(left, right) for left, right, _ in given]
    refusals = [words_verdict(a) or words_verdict(b) for a, b in todo]
    sound = [v == 0 for v in refusals]
    compared = ask([f"cmpw {for_rust(a)} {for_rust(b)}" if ok else "unit 0 0" for ok, (a, b) in zip(sound, todo)])
    traced = ask([f"effw {for_rust(a)}" if words_verdict(a) == 0 else "unit 0 0" for a, _ in todo])
    lines, verdicts, effect_verdicts = [], {}, {}
    for j, (ok, (left, right), answer, effect) in enumerate(zip(sound, todo, compared, traced)):
        verdict, kind, place = refusals[j], 0, [0] * 14
        if ok:
            words = answer[0].split()
            kind = ["same", "dimensions", "entry"].index(words[0])
            if kind == 2:
                bits = [] if words[1] == "-" else [int(b) for b in words[1]]
                place = [*(sum(b << j for j, b in enumerate(half)) for half in (bits[:32], bits[32:])), *map(int, words[2:])]
        refused = words_verdict(left)
        if refused:
            length = rng.choice([0, 4, 40])
            effects = [length, refused, *[checksum(pattern(length))] * 2]
        else:
            dim, bits, chain = read_channel(left)
            by_place = sorted(chain, key=lambda x: x[1])
            want = HEADER + len(chain) * record_size(dim)
            length = want + rng.choice([0, 0, 0, 2, -1])
            after = turned = []
            if length < want:
                number = 8
            elif not all(effects_fit(dim, block_at(left, dim, at)) for _, at in chain):
                number = 9
            else:
                number = 0
                order, transposed = [s for s, _ in by_place], blocks(effect)[2]
                after = channel_words(dim, bits, order, transposed, dim)
                turned = channel_words(dim, bits, order, {s: {(c, r): x for (r, c), x in e.items()} for s, e in transposed.items()}, dim)
            effects = [length, number, *(checksum(w + pattern(length)[len(w):]) for w in (after, turned))]
        store, part = lookup(rng, left, wanted[j - CASES] if j >= CASES else None)
        verdicts[verdict, kind] = verdicts.get((verdict, kind), 0) + 1
        effect_verdicts[effects[1]] = effect_verdicts.get(effects[1], 0) + 1
        of_rust = ok and effects[1] == 0
        lines.append(text([0 if of_rust else 1, *sparse(left), *sparse(right), effects[0], len(store), *store, verdict, kind, *place, effects[1], effects[2], effects[1], effects[3], len(part), checksum(part)]))
    print(len(lines), *(f"5 {line}" for line in lines), sep="\n")
    print(f"seed {SEED}: {len(lines)} cases, compare {dict(sorted(verdicts.items()))}, effects {dict(sorted(effect_verdicts.items()))}", file=sys.stderr)


main()

"""Texts for the program that lists a channel, with what it answers.

A case: kind 6, source and the text's length on one line; the text, a newline; the answer's length on one line; the answer. Source 0: the answer is the Rust's; 1: document
01 decides, by its rules of the text or its questions.
"""
import random
import re
import sys

from ask import ask, refusal
from circuits import PLAIN, circuit, flat, syllables, text
from rules import CEILINGS, CH, CNOT, H, MAX_WEIGHT, MEASURE, RESET, RX, RZ, X, channel_verdict, gates

SEED = 1936
RESULT, WORK = 5200, 2000
INPUT = b"refused input\n"


def numbers(given):
    """The numbers of a text, or None."""
    if len(given) > 2048 or not re.fullmatch(rb"[0-9]{1,10}([ \n][0-9]{1,10})*\n?", given):
        return None
    ns = [int(n) for n in given.split()]
    return ns if max(ns) < 2**32 else None


def parts(given):
    """(n, bits, store, gate words) of a text that is an input, or None."""
    ns = numbers(given)
    if ns is None or len(ns) < 3 or ns[1] > 64 or len(ns) < 3 + ns[1]:
        return None
    n, bits = ns[:2]
    store, count, words = ns[2:2 + bits], ns[2 + bits], ns[3 + bits:]
    return (n, bits, store, words) if count <= 64 and len(words) == 5 * count and all(b < 256 for b in store) else None


def given(n, store, gs):
    return text([n, len(store), *store, len(gs), *flat(gs)]).encode()


def padded(given, length):
    """The same numbers with leading zeros, `length` bytes in all."""
    ns, left = given.split(), length - len(given)
    for i, n in enumerate(ns):
        zeros = min(left, 10 - len(n))
        ns[i], left = b"0" * zeros + n, left - zeros
    assert left == 0
    return b" ".join(ns)


def rule_texts():
    example = b"1 1 0 2 0 0 0 0 0 12 0 0 0 0"
    full = given(1, [j % 2 for j in range(64)], [(X, 0, 0, 0, 0)] * 64)
    x, h, measure, reset = (X, 0, 0, 0, 0), (H, 0, 0, 0, 0), (MEASURE, 0, 0, 0, 0), (RESET, 0, 0, 0, 0)
    yield from (example, example + b"\n", example.replace(b" ", b"\n"), b"0 0 0", b"1 0 1 13 0 0 0 0\n", b"0000000001 0000000000 0", full)
    yield from (padded(full, 2048), padded(full, 2047) + b"\n", padded(full, 2049), padded(full, 2048) + b"\n", b"0" * 2049)
    # the text
    yield from (b"", b"\n", b" ", b"0", b"0 0", b"\n" + example, b" " + example, example + b" ", example + b"\n\n", example + b" \n", example + b"\n ")
    yield from (b"0  0 0", b"0\n\n0 0", b"0 \n0 0", b"0\t0 0", b"0\r\n0 0", b"0 0 0\r\n", b"0,0,0", b"-1 0 0", b"+1 0 0", b"0x1 0 0", b"1.0 0 0", b"0 0 0\0", b"\xc2\xa00 0 0", b"0 0 a")
    yield from (b"00000000001 0 0", b"00000000000 0 0", b"4294967295 0 0", b"4294967296 0 0", b"9999999999 0 0", b"99999999999 0 0", b"0 4294967296 0")
    # the counts
    yield from (b"0 0 0 0", b"0 1 0", b"0 1 0 0 0", b"1 0 1", b"1 0 1 1 0 0 0", b"1 0 1 1 0 0 0 0 0", b"1 0 2 1 0 0 0 0", example + b" 0", example[:-2])
    yield from (b"0 1 255 0", b"0 1 256 0", b"0 1 2 0", b"0 1 4294967295 0", b"0 2 1 256 0", given(1, [0] * 65, []), given(1, [], [x] * 65), b"0 4294967295 0", b"0 0 4294967295")
    # refusals of the judge
    yield from (given(5, [], []), given(1, [], [reset] * 7), given(4294967295, [], [(X, 4294967294, 0, 0, 0)]))  # 1
    yield from (given(1, [], [h, (RZ, 0, 0, 0, 8)]), given(1, [], [x, x, (RX, 0, 0, 0, 0)]))  # 2
    yield from (given(2, [], [(CNOT, 0, 0, 0, 0)]), given(1, [0], [h, (MEASURE, 0, 1, 0, 0)]), given(0, [], [x]))  # 3
    yield from (given(1, [2], [h]), given(1, [0, 255], []), given(9, [2], []))  # 4
    yield from (given(1, [], [h, h, (27, 0, 0, 0, 0)]), given(1, [2], [(H, 0, 0, 0, 1)]), given(1, [], [(RZ, 0, 0, 0, 9)]))  # 5
    yield from (given(1, [], [h] * MAX_WEIGHT), given(1, [], [h] * (MAX_WEIGHT + 1)), given(2, [], [(CH, 0, 1, 0, 0)] * (MAX_WEIGHT + 1)))  # 7
    yield from (given(3, [], []), given(4, [0], [measure] * 2), given(2, [0] * 3, [(MEASURE, j % 2, j, 0, 0) for j in range(3)]), given(2, [0], [measure] * 5))  # 8
    yield from (given(2, [0, 0], [(MEASURE, 0, 0, 0, 0), (MEASURE, 1, 1, 0, 0)]), given(2, [1], [measure] * 3), given(1, [0] * 6, [(MEASURE, 0, j, 0, 0) for j in range(6)]))


def random_texts(rng):
    every = PLAIN + [MEASURE, MEASURE, RESET]
    for j in range(30):
        n, bits = rng.choice([0, 1, 1, 1, 2]), rng.choice([0, 1, 2, 3, 33, 64])
        gs = circuit(rng, n, rng.randint(0, 12), every, bits, splits=[0, 4, 2][n])
        yield given(n, [rng.randrange(2) for _ in range(bits)], gs)
    for _ in range(4):  # high weights
        yield given(1, [], syllables(rng, 1, 24))


def expressible(store, words):
    """Whether the Rust's types hold this store and these gates."""
    return all(b < 2 for b in store) and all(g[0] <= 26 and (g[0] != RZ or g[4] <= 8) for g in gates(words))


def main():
    texts = [*rule_texts(), *random_texts(random.Random(SEED))]
    inputs = [parts(t) for t in texts]
    verdicts = [p and channel_verdict(CEILINGS, *p, RESULT, WORK) for p in inputs]
    told = [bool(p) and v[0] <= 3 and expressible(*p[2:]) for p, v in zip(inputs, verdicts)]
    answers = ask([f"chan {p[0]} {p[1]} {text(p[2])} {len(p[3]) // 5} {text(p[3])}" if t else "unit 0 0" for p, t in zip(inputs, told)])
    out = [b"%d\n" % len(texts)]
    for t, v, by_rust, answer in zip(texts, verdicts, told, answers):
        said = b"refused %d %d\n" % v if v else INPUT
        if by_rust:
            assert (refusal(answer) or (0, 0)) == v, (t, answer[:1], v)
            said = "\n".join(answer).encode() + b"\n"
        out.append(b"6 %d %d\n%b\n%d\n%b" % (not by_rust, len(t), t, len(said), said))
    sys.stdout.buffer.write(b"".join(out))
    count = {}
    for v in verdicts:
        key = v[0] if v else "input"
        count[key] = count.get(key, 0) + 1
    print(f"seed {SEED}: {len(texts)} texts, {sum(told)} by the Rust, {len(texts) - sum(told)} by document 01; by verdict {count}", file=sys.stderr)


main()

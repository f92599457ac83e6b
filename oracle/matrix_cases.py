"""Cases of equivalent_up_to_global_phase. A line: kind 1, source, the left and the right matrix, verdict, answer (1: equivalent).

A matrix is dim, its number of words, the number of words that are not 0, and place and value of each of these. Source 0: the Rust's answer;
1: a refusal, which the Rust has not, by document 01.
"""
import random
import sys

from ask import ask, matrix
from circuits import HARD, PLAIN, circuit, flat, text
from rules import MAX_NUMERATOR, NARROW_EXPONENT, NARROW_NUMERATOR, OMEGA, ONE, ZERO, add, lowest, mul, narrow, neg, well_formed

SEED = 63829
DIMS = (1, 2, 4, 8, 16, 32)


def words(dim, entries):
    out = [0] * (5 * dim * dim)
    for (r, c), s in entries.items():
        at = 5 * (r * dim + c)
        out[at:at + 5] = s
    return out


def scaled(entries, s):
    return {k: mul(v, s) for k, v in entries.items() if mul(v, s) != ZERO}


def judge(left, right):
    """The verdict of document 01."""
    for dim, ws in (left, right):
        if dim not in DIMS or len(ws) != 5 * dim * dim or not all(well_formed(tuple(ws[i:i + 5])) for i in range(0, len(ws), 5)):
            return 10
    if left[0] != right[0]:
        return 0
    wide = any(not narrow(tuple(ws[i:i + 5])) for _, ws in (left, right) for i in range(0, len(ws), 5))
    return 9 if wide else 0


def random_scalar(rng, size=3, most=2):
    return lowest((*(rng.randint(-size, size) for _ in range(4)), rng.randint(0, most)))


def pairs(rng):
    """Pairs of (dim, words)."""
    out = []
    circuits = [(n, circuit(rng, n, rng.randint(0, 12), rng.choice([PLAIN, HARD]))) for n in [0, 1, 1, 1, 1, 2, 2, 2, 2, 2] * 7 + [3, 3, 4]]
    answers = ask([f"unit {n} {len(gs)} {text(flat(gs))}" for n, gs in circuits])
    unitaries = [(2**n, matrix(a[1:])) for (n, _), a in zip(circuits, answers)]
    for dim, u in unitaries:
        w = OMEGA[rng.randrange(8)]
        out.append(((dim, words(dim, u)), (dim, words(dim, scaled(u, w)))))
        spoilt = dict(u)
        place = (rng.randrange(dim), rng.randrange(dim))
        spoilt[place] = add(spoilt.get(place, ZERO), rng.choice([ONE, random_scalar(rng)]))
        out.append(((dim, words(dim, u)), (dim, words(dim, scaled(spoilt, w)))))
    for dim, u in unitaries[:40]:
        other = rng.choice([v for d, v in unitaries if d == dim])
        out.append(((dim, words(dim, u)), (dim, words(dim, other))))
        factor = rng.choice([(2, 0, 0, 0, 0), (0, 1, 0, 0, 0), (1, 0, 0, 0, 1), (1, 1, 0, 0, 0), (3, 2, 0, 0, 0), (1, 0, 1, 0, 1), (3, 0, 4, 0, 0)])
        out.append(((dim, words(dim, u)), (dim, words(dim, scaled(u, factor)))))
    # phases that are no scalar: (3 + 4i)/5 and (1 + 2√2·i)/3, each with a factor on both sides
    for dim, u in unitaries[:20]:
        p, q = rng.choice([((5, 0, 0, 0, 0), (3, 0, 4, 0, 0)), ((3, 0, 0, 0, 0), (1, 0, 0, 2, 0)), ((5, 0, 0, 0, 0), (3, 0, 3, 0, 0))])
        out.append(((dim, words(dim, scaled(u, p))), (dim, words(dim, scaled(u, q)))))
    for _ in range(20):
        dim = rng.choice([1, 2])
        a = {(r, c): random_scalar(rng) for r in range(dim) for c in range(dim)}
        f = rng.choice([(1, 0, 0, 0, 0), (0, 0, -1, 0, 0), (0, -1, 0, 1, 1)])
        out.append(((dim, words(dim, a)), (dim, words(dim, scaled(a, f)))))
    # zero matrices, and a zero opposite the first nonzero entry
    for dim in DIMS[:5]:
        zero, one, corner = {}, {(0, 0): ONE}, {(dim - 1, dim - 1): ONE}
        for a, b in ((zero, zero), (zero, one), (one, zero), (zero, corner), (corner, zero), (corner, one), (one, corner), (corner, corner)):
            out.append(((dim, words(dim, a)), (dim, words(dim, b))))
    # large sparse ones
    for dim in (16, 32):
        p = list(range(dim))
        rng.shuffle(p)
        u = {(p[c], c): OMEGA[rng.randrange(8)] for c in range(dim)}
        spoilt = dict(u)
        spoilt[p[dim - 1], dim - 1] = mul(u[p[dim - 1], dim - 1], OMEGA[1])
        out.append(((dim, words(dim, u)), (dim, words(dim, scaled(u, OMEGA[3])))))
        out.append(((dim, words(dim, u)), (dim, words(dim, spoilt))))
    # narrow edges, and past them
    w, e, top = NARROW_NUMERATOR, NARROW_EXPONENT, MAX_NUMERATOR
    edge = [(w, 0, 0, 0, 0), (-w, w, -w, w, 0), (1, 0, 0, 0, e), (w, 1, 0, 0, e), (w + 1, 0, 0, 0, 0),
            (-w - 1, 0, 0, 0, 0), (1, 0, 0, 0, e + 1), (top, 0, 0, 0, 0), (0, 0, 0, w + 1, 1), (0, -top, 1, 0, 60)]
    for s in edge:
        for dim in (1, 2):
            u = {(dim - 1, dim - 1): s}
            out.append(((dim, words(dim, u)), (dim, words(dim, u))))
            out.append(((dim, words(dim, u)), (dim, words(dim, {(dim - 1, dim - 1): neg(s)}))))
            out.append(((dim, words(dim, {})), (dim, words(dim, u))))
            out.append(((dim, words(dim, u)), (2 * dim, words(2 * dim, {(0, 0): ONE}))))
    # malformed words, on either side
    bad = [(top + 1, 0, 0, 0, 0), (0, 0, -top - 1, 0, 0), (2, 0, 0, 0, 1), (0, 0, 0, 0, 1), (1, 0, 0, 0, 61), (1, 0, 0, 0, -1), (4, 2, 0, 6, 3), (1, 0, 0, 0, 2**40)]
    for s in bad:
        dim = rng.choice([1, 2, 4])
        good = (dim, words(dim, {(0, 0): ONE}))
        spoilt = (dim, words(dim, {(0, 0): ONE, (dim - 1, dim - 1): s}))
        out += [(good, spoilt), (spoilt, good), (spoilt, (2, words(2, {(0, 0): (w + 1, 0, 0, 0, 0)})))]
    for dim, length in ((0, 0), (3, 45), (5, 125), (6, 180), (33, 0), (64, 0), (2, 19), (2, 21), (1, 0), (1, 4), (1, 6), (4, 20), (4, 75), (8, 5)):
        short = (dim, [0] * length)
        good = (2, words(2, {(0, 0): ONE}))
        out += [(short, good), (good, short)]
    for s in edge[4:]:  # only the left is wide
        for dim in (1, 2, 4):
            wide = (dim, words(dim, {(dim - 1, 0): s}))
            out += [(wide, (dim, words(dim, {}))), (wide, (dim, words(dim, {(dim - 1, 0): ONE})))]
    return out


def main():
    rng = random.Random(SEED)
    todo = pairs(rng)
    asked = [(p, judge(*p)) for p in todo]
    sure = [p for p, v in asked if v == 0]
    answers = iter(ask(["matphase " + " ".join(text([dim, *ws]) for dim, ws in p) for p in sure]))
    lines, by_rust, equivalent = [], 0, 0
    for p, verdict in asked:
        same = 0
        if verdict == 0:
            same = {"equivalent": 1, "not equivalent": 0}[next(answers)[0]]
            by_rust += 1
            equivalent += same
        numbers = []
        for dim, ws in p:
            marks = [(i, w) for i, w in enumerate(ws) if w]
            numbers += [dim, len(ws), len(marks), *(x for m in marks for x in m)]
        lines.append(text([0 if verdict == 0 else 1, *numbers, verdict, same]))
    print(len(lines), *(f"1 {line}" for line in lines), sep="\n")
    print(f"seed {SEED}: {len(lines)} cases, {by_rust} by the Rust ({equivalent} equivalent), {len(lines) - by_rust} refusals by document 01", file=sys.stderr)


main()

"""Cases of the scalar calls, 19 numbers a line: kind 0, source, call, two operands of five numbers, verdict, value.

Calls: 0 integer (of the first number), 1 zero, 2 i, 3 inv_sqrt_two, 4 omega (of the first number), 5 add, 6 neg, 7 half, 8 conj, 9 mul.
Unused numbers are 0. Source 0: the value is the Rust's; 1: a refusal, which the Rust has not, by document 01. A 9 of add, half and integer is
judged on the exact value that the Rust gives.
"""
import random
import sys

from ask import ask
from rules import MAX_NUMERATOR, NARROW_EXPONENT, NARROW_NUMERATOR, ZERO, narrow, in_range, is_lowest, lowest, well_formed

SEED = 20261110
NAMES = ["integer", "zero", "i", "inv_sqrt_two", "omega", "add", "neg", "half", "conj", "mul"]
ONE_OPERAND, TWO_OPERANDS = (6, 7, 8), (5, 9)
TOP = MAX_NUMERATOR
NUMERATORS = [0, 1, 2, 3, NARROW_NUMERATOR - 1, NARROW_NUMERATOR, NARROW_NUMERATOR + 1, 2**31, 2**53, TOP - 1, TOP, TOP + 1, 2 * TOP, 2**63 - 1]
NUMERATORS += [-n for n in NUMERATORS[1:]] + [-2**63]
EXPONENTS = [0, 1, 2, NARROW_EXPONENT - 1, NARROW_EXPONENT, NARROW_EXPONENT + 1, 59, 60, 61, 64, 2**32 - 1]


def scalar(rng, size, most):
    """A well-formed scalar of numerators up to size, often at its edge, and an exponent up to most."""
    def numerator():
        n = rng.choice([0, 0, 1, rng.randint(0, size), rng.randint(0, 9), size, size - 1])
        return rng.choice([n, -n])
    s = lowest((*(numerator() for _ in range(4)), rng.choice([0, 0, 1, most, rng.randint(0, most)])))
    return s if any(s[:4]) else ZERO


def any_scalar(rng):
    """Five words near the limits, well formed or not."""
    return (*(rng.choice(NUMERATORS) if rng.random() < 0.5 else rng.choice([0, 1, -1]) for _ in range(4)), rng.choice(EXPONENTS))


def edge_sum(rng):
    """Two scalars whose sum has a numerator at, or one past, the edge of the range, at unequal exponents too."""
    e, f = sorted((rng.randint(0, 60), rng.randint(0, 60)))
    shift = 2**(f - e)
    goal = rng.choice([TOP, TOP + 1, -TOP, -TOP - 1, TOP - 1])
    a = max(-TOP, min(TOP, rng.choice([goal // shift, goal // shift - 1, goal // shift + 1])))
    b = goal - a * shift
    at = rng.randrange(4)
    x, y = [0, 0, 0, 0], [0, 0, 0, 0]
    x[at], y[at] = a, b
    x[at - 1] = 1
    y[at - 2] = rng.choice([1, 3, -1])
    x, y = lowest((*x, e)), lowest((*y, f))
    return (x, y) if rng.random() < 0.5 else (y, x)


def cases(rng):
    out = []
    for n in sorted(set(NUMERATORS + [rng.randint(-9, 9) for _ in range(4)])):
        out.append((0, (n, 0, 0, 0, 0), ZERO))
    out += [(k, ZERO, ZERO) for k in (1, 2, 3)]
    out += [(4, (k, 0, 0, 0, 0), ZERO) for k in [*range(17), 255, 256, 257, 2**31 + 5, 2**32 - 1, 2**32 - 2]]
    for call in ONE_OPERAND:
        out += [(call, scalar(rng, TOP, 60), ZERO) for _ in range(14)]
        out += [(call, scalar(rng, 40, 5), ZERO) for _ in range(6)]
        out += [(call, any_scalar(rng), ZERO) for _ in range(10)]
    out += [(7, (1, 0, 0, 0, 60), ZERO), (7, (2, 0, 0, 0, 0), ZERO), (7, (TOP, 0, 0, 0, 0), ZERO), (7, (1, 0, 2, 0, 59), ZERO), (7, ZERO, ZERO)]
    for call in TWO_OPERANDS:
        out += [(call, any_scalar(rng), any_scalar(rng)) for _ in range(20)]
        out += [(call, scalar(rng, 9, 3), any_scalar(rng)) for _ in range(5)]
        out += [(call, any_scalar(rng), scalar(rng, 9, 3)) for _ in range(5)]
        out += [(call, scalar(rng, 9, 3), scalar(rng, 9, 3)) for _ in range(20)]
        out += [(call, scalar(rng, NARROW_NUMERATOR, NARROW_EXPONENT), scalar(rng, NARROW_NUMERATOR, NARROW_EXPONENT)) for _ in range(40)]
    m = NARROW_NUMERATOR
    wide = [(n, 0, 0, 0, 0) for n in (m, m + 1, -m, -m - 1)] + [(1, 0, 0, 0, NARROW_EXPONENT), (1, 0, 0, 0, NARROW_EXPONENT + 1)]
    for x in wide:
        out += [(9, x, (1, 0, 0, 0, 0)), (9, (1, 0, 0, 0, 0), x), (9, ZERO, x), (9, x, ZERO)]
    extreme = (m, m, -m, m, 0)
    out += [(9, extreme, (a, b, c, d, 0)) for a in (m, -m) for b in (m, -m) for c in (m, -m) for d in (m, -m)]
    out += [(5, scalar(rng, TOP, 60), scalar(rng, TOP, 60)) for _ in range(30)]
    out += [(5, *edge_sum(rng)) for _ in range(60)]
    for e in (0, 1, 30, 59, 60):  # equal exponents, where the sum is reduced
        for _ in range(6):
            x = (*(rng.choice([rng.randint(-TOP, TOP), TOP, -TOP, 1]) | (1 if e else 0) for _ in range(4)), e)
            y = (*(rng.choice([rng.randint(-TOP, TOP), TOP - 1, -TOP, -1, -x[i]]) for i in range(4)), e)
            out.append((5, x, y))
    one, two, tiny = (1, 0, 0, 0, 0), (2, 0, 0, 0, 0), (1, 0, 0, 0, 60)
    out += [(5, one, tiny), (5, one, (-1, 0, 0, 0, 60)), (5, two, tiny), (5, two, (-1, 0, 0, 0, 60)), (5, (TOP, 0, 0, 0, 0), tiny), (5, tiny, (TOP, 0, 0, 0, 0)), (5, (TOP, 0, 0, 0, 0), one)]
    for at in range(4):  # 4 + (−2^61 + √2)/2^60, and the same at other numerators: only the aligned operand is out of range
        x, y = [0] * 5, [0] * 5
        x[at], y[at], y[at ^ 1], y[4] = 4, -TOP, 1, 60
        out += [(5, tuple(x), tuple(y)), (5, tuple(y), tuple(x))]
    for at in range(5):  # not in lowest form, at exponent 1
        x = tuple(1 if j == 4 else 2 if j == at else 0 for j in range(5))
        out += [(call, x, ZERO) for call in ONE_OPERAND] + [(call, *xs) for call in TWO_OPERANDS for xs in ((x, one), (one, x))]
    return out


def main():
    rng = random.Random(SEED)
    todo = cases(rng)
    judged, questions = [], []
    for call, x, y in todo:
        operands = {1: (x,), 2: (x, y)}.get(1 if call in ONE_OPERAND else 2 if call in TWO_OPERANDS else 0, ())
        if call in (0, 4):
            judged.append(0)
            questions.append(f"sc {NAMES[call]} {x[0]}")
        elif not all(map(well_formed, operands)):
            judged.append(10)
            questions.append("sc zero")
        elif call == 9 and not all(map(narrow, operands)):
            judged.append(9)
            questions.append("sc zero")
        else:
            judged.append(0)
            questions.append(" ".join(["sc", NAMES[call], *(str(w) for s in operands for w in s)]))
    lines = []
    for (call, x, y), verdict, answer in zip(todo, judged, ask(questions)):
        value = tuple(map(int, answer[0].split()))
        assert is_lowest(value)
        if verdict == 0 and not in_range(value):
            assert call in (0, 5, 7), (call, x, y)
            verdict = 9
        if verdict:
            value = ZERO
        lines.append(" ".join(map(str, (1 if verdict else 0, call, *x, *y, verdict, *value))))
    print(len(lines), *(f"0 {line}" for line in lines), sep="\n")
    refused = sum(line.startswith("1") for line in lines)
    print(f"seed {SEED}: {len(lines)} cases, {len(lines) - refused} by the Rust, {refused} refusals by document 01", file=sys.stderr)


main()

"""Random circuits as gate words."""
from rules import (CH, CNOT, CSWAP, CCX, CCZ, CZ, CY, H, MAX_WEIGHT, MEASURE, RESET, RZ, S, SDG, SWAP, SX, T, TDG, THREE, TWO, WEIGHT, X, Y, Z, arity)

PLAIN = [H, X, Z, S, SDG, T, TDG, RZ, CNOT, CZ, CCX, CCZ, Y, SX, SWAP, CY, CH, CSWAP]
HARD = [H, T, CH, CNOT, CCX, SX]


def gate(rng, n, kinds, bits=0):
    """A well-formed gate on n qubits of one of the kinds that fit, with its operands in any order; None if none fits."""
    kinds = [k for k in kinds if arity(k) <= n and (k != MEASURE or bits)]
    if not kinds:
        return None
    kind = rng.choice(kinds)
    words = rng.sample(range(n), arity(kind))
    if kind == MEASURE:
        words.append(rng.randrange(bits))
    words += [0] * (3 - len(words))
    return (kind, *words, rng.randrange(8) if kind == RZ else 0)


def circuit(rng, n, length, kinds, bits=0, weight=MAX_WEIGHT, splits=6):
    """Up to `length` gates within a weight and a number of measures and resets."""
    out = []
    for _ in range(length):
        allowed = [k for k in kinds if WEIGHT.get(k, 0) <= weight and (splits > 0 or k not in (MEASURE, RESET))]
        g = gate(rng, n, allowed, bits)
        if g:
            out.append(g)
            weight -= WEIGHT.get(g[0], 0)
            splits -= g[0] in (MEASURE, RESET)
    return out


def flat(gs):
    return [w for g in gs for w in g]


def text(numbers):
    return " ".join(map(str, numbers))


def syllables(rng, n, weight):
    """Strings of h·t and s·h·t, with cnot, ch and ccx between them: denominators grow with each."""
    out = []
    while weight > 0:
        q = rng.randrange(n)
        out += ([(S, q, 0, 0, 0)] if rng.random() < 0.3 else []) + [(rng.choice([H, H, SX]), q, 0, 0, 0), (T, q, 0, 0, 0)]
        weight -= 1
        if n > 1 and rng.random() < 0.3:
            g = gate(rng, n, [CNOT, CNOT, CCX] + ([CH] if weight > 0 else []))
            weight -= g[0] == CH
            out.append(g)
    return out


def walk(rng, n, weight):
    """ch after ch, each controlled by the target before it, with a t now and then, on two qubits or more: the denominators grow with every one, as far as a weight allows."""
    out, control = [], rng.randrange(n)
    for _ in range(weight):
        if rng.random() < 0.3:
            out.append((T, rng.randrange(n), 0, 0, 0))
        target = rng.choice([q for q in range(n) if q != control])
        out.append((CH, control, target, 0, 0))
        control = target
    return out


def deep(rng, n, weight):
    """A circuit of this weight whose denominators grow."""
    return walk(rng, n, weight) if n > 1 and rng.random() < 0.5 else syllables(rng, n, weight)

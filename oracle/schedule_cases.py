"""Cases of judge_schedule.

A line: kind 10; source; n, bits; how many words the old list has, and these; the same of the new list; how many entries the table has, and these; verdict, index.

Source 1: the documents decide (rules.py keeps for each qubit and bit the latest old position that has used it), since the Rust has no schedules with a table.
"""
import random
import sys

from circuit_cases import BAD_GATES, BIG
from circuits import PLAIN, circuit, flat, text
from rules import CNOT, H, MEASURE, P, RESET, RZ, X, schedule_verdict, wires

KIND = 10


def scheduled(rng, gs):
    """A schedule at random: of the gates whose forerunners are all placed, one after another."""
    left, table = list(range(len(gs))), []
    while left:
        table.append(rng.choice([k for i, k in enumerate(left) if not any(wires(gs[j]) & wires(gs[k]) for j in left[:i])]))
        left.remove(table[-1])
    return table


def spoilt(rng, new, table):
    """One thing wrong, or maybe nothing."""
    new, table = list(new), list(table)
    i, j = rng.randrange(len(new)), rng.randrange(len(new))
    match rng.randrange(9):
        case 0 | 1:  # neighbours exchanged
            i = min(i, len(new) - 2)
            for part in (new, table):
                part[i], part[i + 1] = part[i + 1], part[i]
        case 2:  # any two exchanged
            for part in (new, table):
                part[i], part[j] = part[j], part[i]
        case 3:
            table[i] = table[j]
        case 4:
            table[i] = rng.choice([len(table), len(table) - 1, 0, BIG])
        case 5:  # from old places to new ones
            table = [table.index(k) for k in range(len(table))]
        case 6:
            new[i] = rng.choice([(X, 0, 0, 0, 0), (RESET, 0, 0, 0, 0), new[j]])
        case 7:
            table.pop()
        case 8:
            new.pop()
    return new, table


def inputs(rng):
    """n, bits, old words, new words, table."""
    x, y = [X, 0, 0, 0, 0], [X, 1, 0, 0, 0]
    for new, table in (([], []), ([], [0]), ([], [BIG]), (x, [0]), (x, []), (x[:3], [])):
        yield 1, 0, [], new, table
    for table in ([0], [1], [BIG], [], [0, 0]):
        yield 1, 0, x, x, table
    for table in ([0, 1], [1, 0], [0, 0], [1, 1], [0, 2], [BIG, 0], [0]):
        yield 2, 0, x + y, x + y, table
        yield 2, 0, x + y, y + x, table
        yield 2, 0, x + x, x + x, table
    every = PLAIN + [MEASURE, MEASURE, RESET]
    for n, count in ((1, 4), (2, 10), (3, 12), (5, 12)):
        for _ in range(count):
            gs = circuit(rng, n, rng.randint(2, 10), every, 2, splits=4)
            table = scheduled(rng, gs)
            new = [gs[k] for k in table]
            yield n, 2, flat(gs), flat(new), table
            for _ in range(2):
                other, entries = spoilt(rng, new, table)
                yield n, 2, flat(gs), flat(other), entries
    a, b = [H, 0, 0, 0, 0], [CNOT, 0, 1, 0, 0]
    for g in BAD_GATES:  # in the first list, in the second, in both
        yield 2, 1, a + list(g), b + a, [1, 0]
        yield 2, 1, b + a, a + list(g), [9]
        yield 2, 1, list(g) + a, list(g) + a, [0, 1]
    able = [P, 0, 0, 0, 0] + [RZ, 1, 0, 0, 8]  # question 6 is not asked
    yield 2, 0, able, able[5:] + able[:5], [1, 0]
    yield BIG, BIG, [X, BIG - 1, 0, 0, 0], [X, BIG - 1, 0, 0, 0], [0]
    yield 2, 0, a + [1], b[:4], []
    yield 2, 0, a, b + [1], []


def main():
    seed, made, verdicts = 2026, [], {}
    for n, bits, old, new, table in inputs(random.Random(seed)):
        verdict = schedule_verdict(n, bits, old, new, table)
        made.append([KIND, 1, n, bits, len(old), *old, len(new), *new, len(table), *table, *verdict])
        verdicts[verdict[0]] = verdicts.get(verdict[0], 0) + 1
    print(len(made), *map(text, made), sep="\n")
    print(f"seed {seed}: {len(made)} schedules; by verdict {dict(sorted(verdicts.items()))}", file=sys.stderr)


main()

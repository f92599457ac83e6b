#!/usr/bin/env python3
"""channels.py [--samples N] [--seconds S] [--minimum]: times two channels and their comparison in numpy, as one writes them by hand in double precision.

Standard input has a circuit a line: how many qubits, then three numbers a gate, kind, qubit and, of a cnot, its target; kinds are 0 h, 5 t and 8 cnot. For
each it prints the nanoseconds of both channels of that circuit and of their comparison: the median of so many repeats in so many seconds, or the least. A
channel is the outer product of the unitary's entries with their conjugates; two are the same where their largest difference is below 1e-9. Arrays are made
once and used again. It needs numpy.
"""
import argparse
import statistics
import sys
import time

import numpy as np

H, T, CNOT = 0, 5, 8
HADAMARD = np.array([[1, 1], [1, -1]], dtype=np.complex128) / np.sqrt(2)
OMEGA = np.exp(0.25j * np.pi)


def unitary(n, gates):
    d = 2**n
    u = np.eye(d, dtype=np.complex128)
    for kind, a, b in gates:
        if kind == H:
            u = np.matmul(HADAMARD, u.reshape(2**a, 2, -1))
        elif kind == T:
            u.reshape(2**a, 2, -1)[:, 1] *= OMEGA
        elif kind == CNOT:
            rows = np.moveaxis(u.reshape((2,) * n + (d,)), (a, b), (0, 1))
            rows[1] = rows[1, ::-1].copy()
        else:
            sys.exit(f"channels.py: no gate of kind {kind}")
    return u


class Pair:
    """Two channels of a circuit, and their comparison, in arrays that are made once."""

    def __init__(self, n, gates):
        self.n, self.gates = n, gates
        self.left, self.right, self.apart = (np.zeros((4**n, 4**n), dtype=np.complex128) for _ in range(3))

    def channel(self, out):
        k = unitary(self.n, self.gates).ravel()
        np.multiply.outer(k, k.conj(), out=out)

    def run(self):
        self.channel(self.left)
        self.channel(self.right)
        np.subtract(self.left, self.right, out=self.apart)
        return np.abs(self.apart).max() < 1e-9


def main():
    asked = argparse.ArgumentParser(description=__doc__, formatter_class=argparse.RawDescriptionHelpFormatter)
    asked.add_argument("--samples", type=int, default=101)
    asked.add_argument("--seconds", type=float, default=2)
    asked.add_argument("--minimum", action="store_true")
    given = asked.parse_args()
    for line in sys.stdin:
        n, *words = map(int, line.split())
        pair = Pair(n, list(zip(words[::3], words[1::3], words[2::3])))
        assert pair.run()
        times, begin = [], time.perf_counter()
        while len(times) < given.samples and (len(times) < 3 or time.perf_counter() - begin < given.seconds):
            start = time.perf_counter_ns()
            pair.run()
            times.append(time.perf_counter_ns() - start)
        print(min(times) if given.minimum else statistics.median(times), flush=True)


main()

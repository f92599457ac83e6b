"""What judge_texts and text_channel answer, worked out apart: texts are read by qasm.py, circuits judged and run by rules.py, numbers and kets written here.

The sentences of the refusals are taken from crates/answers/specs/Reasons.antt, in the order of their numbers."""
import pathlib
import re

import qasm
from rules import CEILINGS, ZERO, add, branches, channel_verdict, conj, gates, mul

ROOM = 1024  # bytes that an answer may take
SAME, DIMENSIONS, ENTRY, LEFT, RIGHT = 100, 101, 102, 105, 106
REASONS = re.findall(r'^sentence .*? = "(.*)"$', (pathlib.Path(__file__).resolve().parent.parent / "crates/answers/specs/Reasons.antt").read_text(), re.M)
OF_GATE = (2, 3, 5)


def number(s):
    """A scalar as mathematics writes it."""
    terms = []
    for n, unit in zip(s[:4], ("", "√2", "i", "i√2")):
        if n:
            size = unit if unit and abs(n) == 1 else f"{abs(n)}{unit}"
            terms.append(("−" if n < 0 else "") + size if not terms else (" − " if n < 0 else " + ") + size)
    text = "".join(terms) or "0"
    return text if s[4] == 0 else f"({text})/{2**s[4]}" if len(terms) > 1 else f"{text}/{2**s[4]}"


def outer(n, x, y):
    ket, bra = (format(v, f"0{n}b") if n else "" for v in (x, y))
    return f"|{ket}⟩⟨{bra}|"


def entry(n, row, column):
    d = 2**n
    return f"from input {outer(n, row % d, column % d)} to output {outer(n, row // d, column // d)}"


def blocks(n, store, gs):
    """The Choi blocks by store, without their zeros: entry (o·d + i, p·d + j) sums K(o, i)·conj(K(p, j)) over the branches of the store."""
    out, d = {}, 2**n
    for kraus, st in branches(n, store, gs):
        block = out.setdefault(st, {})
        for (o, i), v in kraus.items():
            for (p, j), w in kraus.items():
                key = (o * d + i, p * d + j)
                block[key] = add(block.get(key, ZERO), mul(v, conj(w)))
    return {st: {k: v for k, v in b.items() if v != ZERO} for st, b in out.items()}


def first_difference(a, b):
    """(store, row, column, left, right) of the first unequal entry by stores from bit 0 on, rows and columns; or None."""
    for st in sorted(a.keys() | b.keys()):
        x, y = a.get(st, {}), b.get(st, {})
        for at in sorted(x.keys() | y.keys()):
            if x.get(at, ZERO) != y.get(at, ZERO):
                return (st, *at, x.get(at, ZERO), y.get(at, ZERO))
    return None


def place(text, position):
    """Line and column of a byte, from 1; columns are bytes."""
    before = text[:position]
    return before.count(b"\n") + 1, position - (before.rfind(b"\n") + 1) + 1


def gate_positions(text):
    """Where the gates of a text that is read begin: at its statements but for the include and the registers."""
    at, found = qasm.BLANKS.match(text).end() + len(qasm.HEADER), []
    while (at := qasm.GAP.match(text, at).end()) < len(text):
        if qasm.WORD.match(text, at)[0] not in (b"include", b"qreg", b"creg"):
            found.append(at)
        while text[at:at + 1] != b";":  # no semicolon stands in a comment inside a statement that this walk meets: comments are gaps
            gap = qasm.GAP.match(text, at).end()
            at = gap if gap > at else at + 1
        at += 1
    return found


class Side:
    """One text: read, judged, and refused or not, with so many words lent for its gates, its channel and the work."""

    def __init__(self, text, given, limits, gate_words, result, work):
        self.text, self.room = text, gate_words // 5
        self.number, self.qubits, self.bits, words, self.position = qasm.read(text, gate_words)
        self.index, self.gates, self.gate, self.line, self.column = 0, 0, b"", 0, 0
        if self.number == qasm.SHORT:
            self.gates = len(qasm.read(text)[3]) // 5
        elif self.number:
            self.line, self.column = place(text, self.position)
        else:
            self.store = given + [0] * (min(self.bits, 64) - len(given))
            self.circuit = gates(words)
            self.number, self.index = channel_verdict(limits, self.qubits, self.bits, self.store, words, result, work)
            if self.number in OF_GATE:
                self.position = gate_positions(text)[self.index]
                self.line, self.column = place(text, self.position)
                self.gate = qasm.line(self.circuit[self.index])

    def refusal(self, opening):
        out = f"{opening} {self.number} {self.index} {self.position}\n".encode()
        if self.line:
            out += b"line %d, column %d" % (self.line, self.column) + (b": " + self.gate if self.gate else b"\n")
        if self.gates:
            out += b"%d gates, and room for %d\n" % (self.gates, self.room)
        return out + REASONS[self.number].encode() + b"\n"

    def numbers(self):
        return [self.number, self.index, self.position, self.line, self.column, self.gates]


def judge(left, right, given, limits=CEILINGS, gate_words=5120, first=10**9, second=10**9, work=10**9, room=ROOM):
    """(number, answer, six numbers, ten words of scalars) as foreituka_judge_texts gives them."""
    none = [0] * 10
    if room < ROOM:
        return 8, b"", [0] * 6, none
    a = Side(left, given, limits, gate_words, first, work)
    if a.number:
        return LEFT, a.refusal("left refused"), a.numbers(), none
    b = Side(right, given, limits, gate_words, second, work)
    if b.number:
        return RIGHT, b.refusal("right refused"), b.numbers(), none
    if (a.qubits, a.bits) != (b.qubits, b.bits):
        said = f"dimensions\nqubits: {a.qubits} against {b.qubits}; classical bits: {a.bits} against {b.bits}\n"
        return DIMENSIONS, said.encode(), [0] * 6, none
    found = first_difference(blocks(a.qubits, a.store, a.circuit), blocks(b.qubits, b.store, b.circuit))
    if found is None:
        return SAME, b"same\nThe two circuits do the same: their channels are equal at every store, row and column.\n", [0] * 6, none
    store, row, column, x, y = found
    after = f"after storing {''.join(map(str, store))}, " if a.bits else ""
    said = f"different\n{after}{entry(a.qubits, row, column)}: {number(x)} against {number(y)}\n"
    return ENTRY, said.encode(), [sum(b << j for j, b in enumerate(store)), row, column, 0, 0, 0], [*x, *y]

"""Pairs of texts for the program judge_pairs: `pair_cases.py DIR` writes DIR/stdin and DIR/stdout, what it is given and what it must answer.

On standard input: how many pairs there are, then for each how many initial bits are given and these bits, on one line; the left text and the right one, each with its length on a line before it and a newline behind it. Behind
each answer stands a line of four dashes. answers.py works the answers out."""
import pathlib
import sys

from answers import DIMENSIONS, ENTRY, LEFT, RIGHT, SAME, judge
from rules import CEILINGS

MARK = b"----\n"
GATES, CHANNEL, WORK = 1100, 5200, 3000  # words that the program lends
EXAMPLES = pathlib.Path(__file__).resolve().parent.parent / "examples"


def text(n, m, *gs):
    return ('OPENQASM 2.0;\ninclude "qelib1.inc";\n' + f"qreg q[{n}];\n" + (f"creg c[{m}];\n" if m else "") + "".join(g + ";\n" for g in gs)).encode()


def h(q=0):
    return f"h q[{q}]"


def x(q=0):
    return f"x q[{q}]"


def cx(a, b):
    return f"cx q[{a}],q[{b}]"


def measure(q=0, c=0):
    return f"measure q[{q}]->c[{c}]"


def pairs():
    bell = text(2, 2, h(), cx(0, 1), measure(0, 0), measure(1, 1))
    # the same
    yield "", text(1, 0, h(), h()), text(1, 0)
    yield "", bell, text(2, 2, h(1), cx(1, 0), measure(1, 1), measure(0, 0))
    yield "", text(0, 0), text(0, 0)
    yield "", text(0, 64), text(0, 64)
    yield "1", text(1, 1, x()), text(1, 1, h(), "z q[0]", h())
    yield "", text(1, 0, *[h()] * 48), text(1, 0)
    yield "", bell, bell.replace(b"\n", b"\r\n") + b"// the same, with other line ends"
    yield "", text(1, 0, "t q[0]", "t q[0]"), b"OPENQASM 2.0;include\"qelib1.inc\";qreg r[1];s r[0];"
    yield "", text(1, 1, "reset q[0]"), text(1, 1, "reset q[0]", "reset q[0]")
    # an entry differs
    yield "", text(1, 0, h()), text(1, 0)
    yield "", text(1, 0), text(1, 0, h())
    yield "", text(1, 0, "t q[0]"), text(1, 0, "s q[0]")
    yield "", text(1, 0, "tdg q[0]"), text(1, 0)
    yield "", bell, text(2, 2, h(), cx(0, 1), "t q[1]", h(), measure(0, 0), measure(1, 1))
    yield "", text(1, 1, h(), "t q[0]", h(), measure()), text(1, 1, h(), measure())
    yield "", text(1, 2, h(), measure(0, 1)), text(1, 2, h(), measure(0, 0))
    yield "01", text(1, 2, x(), measure()), text(1, 2, measure())
    yield "1", text(0, 64), text(0, 64)
    yield "", text(1, 64, measure(0, 63)), text(1, 64, x(), measure(0, 63))
    yield "", text(2, 0, cx(0, 1)), text(2, 0, cx(1, 0))
    yield "", text(2, 0, "swap q[0],q[1]"), text(2, 0)
    yield "", text(1, 0, *[h(), "t q[0]"] * 12), text(1, 0, *["t q[0]", h()] * 12)
    yield "", text(1, 0, "reset q[0]"), text(1, 0)
    # other dimensions
    yield "", text(1, 0), text(2, 0)
    yield "", text(1, 1), text(1, 2)
    yield "", text(0, 0), text(2, 3)
    yield "1", text(1, 1), text(1, 64)
    # the left one is refused
    yield "", b"", bell
    yield "", b"OPENQASM 3.0;\nqubit q;\n", bell
    yield "", text(1, 0, "rz(pi/8) q[0]"), bell
    yield "", text(1, 0, "u3 q[0]"), b"neither is this"
    yield "", text(2, 0, "h  r[0]"), bell
    yield "", text(1, 0, h(), x(), x(1)), bell
    yield "", b'OPENQASM 2.0; include "qelib1.inc"; // ; x q[0];\nqreg q[2]; creg c[0]; h q[0];x q[1]; // ;\n  cx\n q[1],q[1];', bell
    yield "", text(1, 1, measure(0, 1)), bell
    yield "", text(2, 0, cx(0, 0)), bell
    yield "000", bell, bell
    yield "02", bell, bell
    yield "", text(0, 65), bell
    yield "", text(5, 0), bell
    yield "", text(1, 0, *["reset q[0]"] * 7), bell
    yield "", text(4294967295, 0), bell
    yield "", text(4294967296, 0), bell
    yield "", text(1, 0, *[h()] * 57), bell
    yield "", text(1, 0, *[x()] * 221), bell
    yield "", text(3, 0), bell
    yield "", text(1, 1, *[measure()] * 6), bell
    # the right one
    yield "", bell, b""
    yield "", bell, text(2, 2, h(), cx(0, 2))
    yield "", bell, text(2, 2, "cz q[0],q[0]", cx(0, 2))
    yield "11", text(2, 2), text(2, 1)
    yield "", bell, text(1, 1, *[x()] * 222)
    yield "", bell, text(2, 2)[:-2]
    yield "", bell, b"\n\n   " + text(2, 2) + b"\n\n\t nop q[0];"
    # pairs of which more is said in examples
    for name in ("equal", "near", "rare", "words"):
        pair = [EXAMPLES / f"{name}_{k}.qasm" for k in (1, 2)]
        yield "", *(p.read_bytes() for p in pair)


def main():
    given = [*pairs()]
    stdin, stdout, seen = b"%d\n" % len(given), b"", {}
    for bits, left, right in given:
        number, said, _, _ = judge(left, right, [int(b) for b in bits], CEILINGS, GATES, CHANNEL, CHANNEL, WORK)
        seen[number] = seen.get(number, 0) + 1
        stdin += " ".join([str(len(bits)), *bits]).encode() + b"\n" + b"".join(b"%d\n%b\n" % (len(t), t) for t in (left, right))
        stdout += said + MARK
    assert set(seen) == {SAME, DIMENSIONS, ENTRY, LEFT, RIGHT}
    to = pathlib.Path(sys.argv[1])
    (to / "stdin").write_bytes(stdin)
    (to / "stdout").write_bytes(stdout)
    print(f"{sum(seen.values())} pairs: {seen}, {len(stdin)} bytes", file=sys.stderr)


if __name__ == "__main__":
    main()

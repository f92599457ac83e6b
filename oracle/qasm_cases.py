"""Cases of read_qasm and write_qasm: `qasm_cases.py replay` prints how many there are and all of them; `qasm_cases.py texts DIR` puts each text into a file of DIR.

A text that is read: kind, source and the text's length on one line; the text, a newline; on one line the room for gate words, then the answer: number, qubits, bits,
how many words were written, position, and these words. A circuit that is written: on one line kind, source, qubits, bits, the number of gate words and the words, the
room for bytes, then the answer: number, index, how many bytes were written; then these bytes. Source 1: document 02 decides. A refusal changes nothing in the
room, and an acceptance nothing behind what it writes.

A bar in a text stands before the first token that cannot stand there; it is no part of the text. qasm.py has to find the fault at the bar.
"""
import pathlib
import sys

from circuits import flat, text as numbers
from qasm import FORM, GATES, HEADER, KINDS, MOST, NAME, NAMES, SHORT, is_sound, read, write
from rules import CCX, CCZ, CH, CNOT, CSWAP, CY, H, MEASURE, P, RESET, RX, RZ, S, SDG, SWAP, SX, TDG, X, Y, Z, arity

READ, WRITE = 8, 9  # kinds
EXAMPLES = pathlib.Path(__file__).resolve().parent.parent / "examples"
BAR = "¦"
TOP = 'OPENQASM 2.0;include"qelib1.inc";'
ONE, TWO = TOP + "qreg q[2];", TOP + "qreg q[3];creg c[2];"  # one register, and two
SPARE = 10  # words of room for a text that is refused


def fault(number, *texts, top="", room=SPARE):
    """Texts behind the same beginning, refused at their bars."""
    for t in texts:
        before, after = (top + t).split(BAR)
        yield (before + after).encode("latin-1"), room, (number, 0, 0, [], len(before))


def sound(text, qubits, bits=0, *gs, room=None):
    """A text with its counts and its gates, for which there is just enough room, or this much."""
    words = flat(gs)
    room = len(words) if room is None else room
    yield text.encode("latin-1"), room, (0, qubits, bits, words, 0) if len(words) <= room else (SHORT, 0, 0, [], 0)


def gate(kind, *operands, k=0):
    return (kind, *operands, *[0] * (3 - len(operands)), k)


# ---- texts
def headers():
    yield from fault(FORM, "¦", " \t\r\n¦", "¦OPENQASM 2.0", "  ¦OPENQASM 2.", "¦O", "¦;", "\r\n\t ¦qreg q[1];", "¦/", "¦//", " ¦// mine\nOPENQASM 2.0;")
    for header in ("OPENQASM 2.0 ;", "OPENQASM  2.0;", "OPENQASM\t2.0;", "OPENQASM\n2.0;", "OPENQASM 2.1;", "OPENQASM 2;", "OPENQASM 3.0;", "OPENQASM 02.0;",
                   "OPENQASM 2.00;", "openqasm 2.0;", "OPENQASM2.0;", "OPENQASM//\n 2.0;", "\xef\xbb\xbfOPENQASM 2.0;", "\vOPENQASM 2.0;", "\fOPENQASM 2.0;",
                   "\0OPENQASM 2.0;", "\xa0OPENQASM 2.0;", "//\nOPENQASM 2.0;"):
        yield from fault(FORM, BAR + header + TOP[len(HEADER):] + "qreg q[1];")
    yield from sound(" \t\r\n " + TOP + "qreg q[1];", 1)
    yield from sound(TOP.replace(";i", ";//\ni") + "qreg q[1];", 1)


def includes():
    after = HEADER.decode()
    yield from fault(FORM, "¦", " // include\n¦", "¦;", "¦qreg q[1];", "¦OPENQASM 2.0;", "¦x", '¦Include "qelib1.inc";', '¦includes "qelib1.inc";', "¦includeqelib1",
                     '¦"qelib1.inc";', top=after)
    yield from fault(FORM, "¦", "¦;", "¦qelib1.inc;", "¦'qelib1.inc';", "¦<qelib1.inc>;", '¦"qelib1.inc', '¦"qelib1.inc ";', '¦" qelib1.inc";', '¦"qelib1"', '¦"QELIB1.INC";',
                     '¦""qelib1.inc"";', '¦"./qelib1.inc";', '¦"qelib2.inc";', '¦"stdgates.inc";', '¦"qelib1.//\ninc";', '¦"', "¦1", top=after + "include ")
    yield from fault(FORM, "¦", "¦qreg q[1];", " // ;\n¦", '¦"qelib1.inc";', "¦,", top=after + 'include "qelib1.inc"')
    yield from fault(FORM, '¦include "qelib1.inc";', "¦;", top=TOP)
    yield from sound(after + 'include//"\n"qelib1.inc"//"\r\n\t; qreg q[1];', 1)


def declarations():
    yield from fault(FORM, "¦", "¦creg c[1];qreg q[1];", "¦x q[0];", "¦gate g a { x a; } qreg q[1];", "¦opaque g a;", "¦barrier q;", "¦qregs q[1];", "¦qreg1 q[1];",
                     "¦Qreg q[1];", "¦qregq[1];", "¦qre//\ng q[1];", top=TOP)
    for top in (TOP + "qreg ", ONE + "creg "):
        yield from fault(FORM, "¦", "¦Q[1];", "¦_c[1];", "¦1c[1];", "¦[1];", "¦;", "¦\xe9[1];", '¦"a"[1];', top=top)
        yield from fault(FORM, "¦", "¦;", "¦(1);", "¦.b[1];", "¦-b[1];", " ¦b[1];", "¦\0[1];", "[¦", "[¦];", "[¦-1];", "[¦+1];", "[¦x];", "[¦[1]];", "[1¦", "[1¦;", "[1¦.5];",
                         "[1¦,2];", "[1¦x];", "[0¦x1];", "[1 ¦2];", "[1//\n¦2];", "[1]¦", "[1]¦,b[1];", "[1] ¦x q[0];", "[1]¦];", top=top + "a")
    yield from fault(FORM, "creg ¦q[2];", "creg //\n¦q[1];x q[0];", top=ONE)
    yield from fault(NAME, "¦creg d[1];", "¦creg c[2];", "¦qreg r[1];", "¦creg", "x q[0];¦creg d[1];", top=TWO)
    yield from fault(NAME, "¦qreg q[2];", "¦include", "¦OPENQASM 2.0;", "¦cregs c[1];", "¦creg1", "¦Creg c[1];", "¦cregc[1];", "¦cr//\neg c[1];", "x q[0];¦creg c[1];", top=ONE)
    for name in ("x", "measure", "qreg", "creg", "include", "aZ_09", "a" * 70):
        yield from sound(f"{TOP}qreg {name}[2];x {name}[1];", 2, 0, gate(X, 1))
    for q, c in (("q", "c"), ("q", "qq"), ("qq", "q"), ("q", "q_"), ("qa", "qA"), ("creg", "qreg"), ("s", "swap"), ("measure", "reset")):
        yield from sound(f"{TOP}qreg {q}[2];creg {c}[3];s {q}[0];measure {q}[1]->{c}[2];", 2, 3, gate(S, 0), gate(MEASURE, 1, 2))
    yield from sound(TOP + "qreg q[0];", 0)
    yield from sound(TOP + "qreg q[0];creg c[0];", 0)


def gate_names():
    operands = {"q": ("q[2]", 2), "q,q": ("q[2],q[0]", 2, 0), "q,q,q": ("q[2],q[0],q[1]", 2, 0, 1), "q>c": ("q[2]->c[1]", 2, 1)}
    lines = [(f"{name.decode()} {operands[form][0]};", gate(kind, *operands[form][1:])) for name, (kind, form) in KINDS.items()]
    for line, g in lines:
        yield from sound(TWO + line, 3, 2, g)
    yield from sound(TWO + "".join(line for line, _ in lines), 3, 2, *(g for _, g in lines))
    for name in ("X", "xx", "x0", "x_", "_", "_x", "H", "CX", "U", "id", "u3", "rx", "ry", "rz", "crz", "cu1", "p", "sx", "sxdg", "ccz", "sd", "sdgx", "dg", "tdg_", "cc",
                 "cx0", "swa", "swap2", "cswa", "cswaps", "measur", "measured", "Measure", "rese", "resets", "barrier", "opaque", "gate", "if", "pi", "c", "q"):
        yield from fault(NAME, f"{BAR}{name} q[0];", top=TWO)
    yield from fault(NAME, "¦sd//\ng q[0];", "¦rz(pi/4) q[0];", "¦if(c==1) x q[0];", "¦barrier q;", "¦U(0,0,0) q[0];", "x q[0];¦foo", top=TWO)
    for sign in ";[],/*#-{}@`:\"\\\0\x0b\x0c\x7f\x80\xff\xe9":
        yield from fault(FORM, BAR + sign, top=TWO)
    yield from fault(FORM, "¦1x q[0];", "¦0", "¦->", '¦"qelib1.inc";', "¦/ x q[0];", "¦/* c */", "x q[0];¦;", "x q[0]; ¦-x q[0];", "x q[0];¦\v", top=TWO)


def operands():
    for name in ("x", "reset"):
        yield from fault(FORM, "¦", " ¦", " ¦;", " ¦[0];", " ¦0;", " ¦->", "¦(0) q[0];", " q¦", " q¦;", " q¦,q;", " q¦]", " q[¦", " q[¦];", " q[¦q];", " q[¦-1];", " q[0¦",
                         " q[0¦;", " q[0¦,1];", " q[0¦:1];", " q[0 ¦0];", " q[0]¦", " q[0]¦,q[1];", " q[0] ¦x q[0];", " q[0]¦->c[0];", " q[0]¦);", top=TWO + name)
        yield from fault(NAME, " ¦r[0];", " ¦c[0];", " ¦x[0];", " ¦Q[0];", " ¦qq[0];", " ¦q0[0];", " ¦_[0];", " ¦creg[0];", top=TWO + name)
    yield from fault(FORM, "¦", "¦;", " ¦q[1];", "¦->q[1];", "¦[1];", ",¦", ",¦;", ",¦,q[1];", ",¦0;", ",q¦;", ",q[¦];", ",q[1¦;", ",q[1]¦", ",q[1]¦,q[2];", ",q[1] ¦->c[0];",
                     top=TWO + "cx q[0]")
    yield from fault(NAME, ",¦r[1];", ",¦c[1];", ",¦qq[1];", top=TWO + "swap q[0]")
    yield from fault(FORM, "¦;", " ¦q[2];", ",¦;", ",q¦;", ",q[¦];", ",q[2]¦", ",q[2]¦,q[0];", top=TWO + "ccx q[0],q[1]")
    yield from fault(NAME, ",¦c[0];", ",¦x[0];", top=TWO + "cswap q[0],q[1]")
    yield from fault(FORM, "¦", "¦;", "¦,c[0];", " ¦c[0];", " ¦- > c[0];", "¦-//\n>c[0];", "¦> c[0];", "¦=> c[0];", "¦=c[0];", "¦--> c[0];", "¦-", "¦<- c[0];", "->¦", "->¦;",
                     "->¦>c[0];", "->¦->c[0];", "->¦0;", "->¦[0];", "->c¦;", "->c¦,", "->c[¦];", "->c[0¦;", "->c[0]¦", "->c[0]¦,c[1];", "->c[0]¦->c[1];",
                     top=TWO + "measure q[0]")
    yield from fault(NAME, "q[0]->¦q[0];", "q[0]->¦d[0];", "q[0]->¦C[0];", "q[0]->¦cc[0];", "¦c[0]->q[0];", top=TWO + "measure ")
    yield from fault(FORM, "¦->c;", "¦;", " ¦-> c[0];", top=TWO + "measure q")
    # no classical register
    yield from fault(NAME, "¦c[0];", "¦q[0];", "¦measure", top=ONE + "measure q[0]->")
    yield from fault(FORM, "¦", "¦;", "¦0", top=ONE + "measure q[0]->")
    # ranges and repeats are not the reader's to judge
    yield from sound(ONE + "x q[9];cx q[0],q[0];ccx q[1],q[1],q[1];", 2, 0, gate(X, 9), gate(CNOT, 0, 0), gate(CCX, 1, 1, 1))
    yield from sound(TWO + "measure q[3]->c[2];measure q[0]->c[0];measure q[0]->c[0];", 3, 2, gate(MEASURE, 3, 2), gate(MEASURE, 0, 0), gate(MEASURE, 0, 0))
    yield from sound(TOP + "qreg q[0];creg c[0];x q[0];measure q[0]->c[0];", 0, 0, gate(X, 0), gate(MEASURE, 0, 0))


SMALL = ["0", "9", "10", "999999999", "1000000000", "3999999999", "4294967289", "4294967294", "4294967295"]
LARGE = ["4294967296", "4294967300", "5000000000", "9999999999", "10000000000", "42949672950", "8589934592", "18446744073709551615", "18446744073709551616",
         "18446744073709551617", "79228162514264337593543950336", "1" + "0" * 300]
ZEROS = ["00", "01", "007", "0" * 11, "04294967295", "00000000001", "0" * 300]


def number_limits():
    for n in SMALL:
        v = int(n)
        yield from sound(f"{TOP}qreg q[{n}];creg c[{n}];x q[{n}];", v, v, gate(X, v))
        yield from sound(f"{TWO}cx q[{n}],q[{n}];cswap q[0],q[1],q[{n}];measure q[{n}]->c[{n}];", 3, 2, gate(CNOT, v, v), gate(CSWAP, 0, 1, v), gate(MEASURE, v, v))
    for n in LARGE + ZEROS:
        yield from fault(FORM, f"{TOP}qreg q[¦{n}];", f"{ONE}x q[¦{n}];")
    for n in ("4294967296", "18446744073709551616", "00", "01"):
        yield from fault(FORM, f"{ONE}creg c[¦{n}];", f"{TWO}cz q[0],q[¦{n}];", f"{TWO}ccx q[0],q[1],q[¦{n}];", f"{TWO}measure q[¦{n}]->c[0];", f"{TWO}measure q[0]->c[¦{n}];")


# a text of every form; a blank behind a word that another would follow
TOKENS = ["include", '"qelib1.inc"', ";", "qreg ", "q", "[", "3", "]", ";", "creg ", "c", "[", "1", "]", ";", "cx ", "q", "[", "0", "]", ",", "q", "[", "1", "]", ";",
          "measure ", "q", "[", "2", "]", "->", "c", "[", "0", "]", ";"]


def comments():
    yield from sound(ONE + "//", 2)
    yield from sound(ONE + "x q[0];// end", 2, 0, gate(X, 0))
    yield from sound(ONE + "x q[0];//\n", 2, 0, gate(X, 0))
    yield from sound(ONE + "///// x q[0];\n//\n//\r\n\n//\t", 2)
    yield from sound(ONE + "// a carriage return ends no comment\rx q[1];\nx q[0];", 2, 0, gate(X, 0))
    yield from sound(ONE + "//\rfoo", 2)
    yield from sound(ONE + "// \0 \xff \x80 \xe9 \" ' // /* \\\nx q[0];", 2, 0, gate(X, 0))
    for gap in (" ", "\t", "\n", "\r", "\r\n", "//\n", " // c ; \r [ \n\t"):
        yield from sound(HEADER.decode() + gap + gap.join(TOKENS) + gap, 3, 1, gate(CNOT, 0, 1), gate(MEASURE, 2, 0))
    yield from fault(FORM, "x q[0] // ;¦", "x q[0] //\r;¦", "x // q[0];¦", "x q[0//];\n¦", "x q[1//\n¦2];", "x q[0];¦/", "x q[0]¦/;", "x q[0];¦/ /", "x q[0] ¦/* */;",
                     "¦/\n/ x q[0];", top=TWO)
    yield from fault(NAME, "//\n¦foo", "//\r\n¦foo q[0];", "// \r ; \n ¦foo", "x // q\n¦r[0];", top=TWO)


def places():
    """The token at each place left out; another word, number or sign there; or the text's end."""
    for i in range(len(TOKENS)):
        before, after = (HEADER.decode() + "".join(TOKENS[:i])).encode(), "".join(TOKENS[i + 1:]).encode()
        for t in (before + after, before + b" other " + after, before + b" 7" + after, before + b";" + after, before + b"," + after, before):
            yield t, SPARE, read(t, SPARE)


def order():
    """The earliest fault decides; too little room is told only of a text that has none."""
    yield from fault(NAME, "¦u q[00];", "x ¦r[00]", "¦foo ?", "¦barrier ;", top=ONE)
    yield from fault(FORM, "x q[¦00]; u q[0];", "x q[0]¦, r[0];", "¦; foo", "cx q[0]¦;r[1];", "x q[¦4294967296];y r[0];", top=ONE)
    for room in (0, 5, 100):
        yield from fault(FORM, "x q[0];y q[1];¦;", top=ONE, room=room)
        yield from fault(NAME, "x q[0];y q[1];¦u q[0];", top=ONE, room=room)
    for room in (0, 1, 4, 5, 8, 9, 10, 11, 15, 40):
        yield from sound(ONE + "x q[0];y q[1];", 2, 0, gate(X, 0), gate(Y, 1), room=room)
    for room in (0, 4, 5, 6):
        yield from sound(TWO + "measure q[1]->c[1];", 3, 2, gate(MEASURE, 1, 1), room=room)
    yield from sound(TWO, 3, 2, room=0)
    yield from sound(TWO, 3, 2, room=3)


def printed():
    """What other tools print, as far as their form is known, and what is seen in collections; docs/QASM.md has the reasons of the refusals."""
    top = 'OPENQASM 2.0;\ninclude "qelib1.inc";\n'
    bell = (gate(H, 0), gate(CNOT, 0, 1), gate(MEASURE, 0, 0), gate(MEASURE, 1, 1))
    # Qiskit
    yield from sound(top + "qreg q[2];\ncreg c[2];\nh q[0];\ncx q[0],q[1];\nmeasure q[0] -> c[0];\nmeasure q[1] -> c[1];\n", 2, 2, *bell)
    yield from sound(top + "qreg q[3];\nreset q[2];\nsdg q[0];\ntdg q[1];\nch q[0],q[1];\ncy q[1],q[2];\nswap q[0],q[2];\nccx q[0],q[1],q[2];\ncswap q[2],q[1],q[0];\n", 3, 0,
                     gate(RESET, 2), gate(SDG, 0), gate(TDG, 1), gate(CH, 0, 1), gate(CY, 1, 2), gate(SWAP, 0, 2), gate(CCX, 0, 1, 2), gate(CSWAP, 2, 1, 0))
    yield from fault(NAME, "qreg q[2];\ncreg meas[2];\nh q[0];\n¦barrier q[0],q[1];\nmeasure q[0] -> meas[0];\n", "qreg q[1];\ncreg c[1];\nmeasure q[0] -> c[0];\n¦if(c==1) x q[0];\n",
                     "qreg q[1];\n¦rz(pi/4) q[0];\n", "qreg q[1];\n¦sx q[0];\n", "qreg q[1];\n¦id q[0];\n", "qreg q[1];\n¦u(pi/2,0,pi) q[0];\n", "qreg q[2];\ncreg a[1];\n¦creg b[1];\n",
                     "qreg a[1];\n¦qreg b[1];\nx a[0];\n", top=top)
    yield from fault(FORM, "¦gate ccz q0,q1,q2 { h q2; ccx q0,q1,q2; h q2; }\nqreg q[3];\nccz q[0],q[1],q[2];\n", "¦opaque g q0;\nqreg q[1];\n", top=top)
    # Cirq
    cirq = top + "\n\n// Qubits: [q(0), q(1)]\nqreg q[2];\ncreg m_m[2];\n\n\nh q[0];\ncx q[0],q[1];\n\n// Gate: M('m')\nmeasure q[0] -> m_m[0];\nmeasure q[1] -> m_m[1];\n"
    yield from sound(cirq, 2, 2, *bell)
    yield from fault(FORM, "¦// Generated from Cirq\n\n" + cirq)
    yield from fault(NAME, "\n\n// Qubits: [q(0), q(1)]\nqreg q[2];\ncreg m_a[1];\n¦creg m_b[1];\n\n\nh q[0];\n", "\n\n// Qubits: [q(0)]\nqreg q[1];\n\n\n¦rx(pi*0.5) q[0];\n", top=top)
    # pytket
    yield from sound(top + "\nqreg q[2];\ncreg c[2];\nh q[0];\ncx q[0],q[1];\nmeasure q[0] -> c[0];\nmeasure q[1] -> c[1];\n", 2, 2, *bell)
    yield from fault(NAME, "\nqreg q[2];\ncreg c[2];\n¦rz(0.5*pi) q[0];\n", "\nqreg q[2];\n¦barrier q[0],q[1];\n", "\nqreg a[1];\n¦qreg q[1];\n", top=top)
    yield from fault(FORM, 'OPENQASM 2.0;\ninclude ¦"hqslib1.inc";\n\nqreg q[1];\n')
    # by hand
    yield from fault(FORM, "qreg q[2];\ncreg c[2];\nh q[0];\nmeasure q ¦-> c;\n", "qreg q[2];\nh q¦;\n", "¦creg c[2];\nqreg q[2];\n", "¦gate g a { x a; }\nqreg q[1];\n", top=top)
    yield from fault(NAME, "qreg q[2];\n¦CX q[0],q[1];\n", "qreg q[2];\n¦U(0,0,0) q[0];\n", "qreg q[2];\n¦barrier q;\n", top=top)
    yield from fault(FORM, "¦// a comment first\nOPENQASM 2.0;\n", "¦OPENQASM 3;\n", "¦OPENQASM 3.0;\n")


def examples():
    for file in sorted(EXAMPLES.glob("*.qasm")):
        t = file.read_bytes()
        answer = read(t)
        assert answer[0] == 0, file
        yield t, len(answer[3]), answer


def read_cases():
    """(text, room, answer), each text and room once."""
    out = {}
    for part in (headers, includes, declarations, gate_names, operands, number_limits, comments, places, order, printed, examples):
        for t, room, answer in part():
            assert read(t, room) == answer, (t, room, answer, read(t, room))
            assert is_sound(t) == (answer[0] in (0, SHORT)), t
            out[t, room] = answer
    return [(t, room, answer) for (t, room), answer in out.items()]


# ---- circuits
NO_NAME = [kind for kind in range(27) if kind not in NAMES]
BAD = [gate(27, 0), gate(MOST, 0), gate(RZ, 0, k=9), gate(RZ, 0, k=MOST), gate(RZ, 0, 1), gate(H, 0, k=1), gate(X, 0, 1), gate(Z, 0, 0, 1), gate(CNOT, 0, 1, 1), gate(CCX, 0, 1, 2, k=1),
       gate(MEASURE, 0, 0, 1), gate(MEASURE, 0, 0, k=1), gate(RESET, 0, 1), gate(P, 0, k=1), gate(SX, 0, MOST), (27, MOST, MOST, MOST, MOST)]


def circuits():
    """(qubits, bits, words, answer without its text)."""
    accepted, words = (0, 0), range(1, 4)
    for n in (0, 1, 9, 10, 99, 100, 999999999, 1000000000, MOST - 1, MOST):
        yield n, MOST - n, [], accepted
    for kind in NAMES:
        used = arity(kind) + (kind == MEASURE)
        yield 3, 1, flat([gate(kind, *words[:used])]), accepted
        yield 0, 0, flat([gate(kind, *[MOST] * used)]), accepted
    yield 5, 2, flat(gate(kind, *range(arity(kind))) for kind in NAMES), accepted
    yield 2, 1, flat([gate(X, 9), gate(CNOT, 0, 0), gate(MEASURE, 7, 7)]), accepted
    for size in (10, 99, 100, 999, 1000, 99999, 100000, 9999999, 10000000):
        yield size, size, flat([gate(CSWAP, size, size - 1, size + 1)]), accepted
    # questions 2 and 4, over the whole list
    for count in (1, 2, 3, 4, 6, 9):
        yield 1, 1, [H, 0, 0, 0, 0, H, 0, 0, 0, 0][:count], (GATES, 0)
    yield 1, 1, flat([gate(27, 0)])[:4], (GATES, 0)
    for g in BAD:
        yield 1, 1, flat([gate(H, 0), g, gate(H, 0)]), (GATES, 1)
    yield 1, 1, flat([gate(27, 0)]), (GATES, 0)
    yield 1, 1, flat([gate(SX, 0), gate(H, 0), gate(X, 0, 1)]), (GATES, 2)
    yield 1, 1, flat([gate(X, 0, 1), gate(SX, 0), gate(27, 0)]), (GATES, 0)
    # kinds without a name
    for kind in NO_NAME:
        yield 1, 1, flat([gate(H, 0), gate(TDG, 0), gate(kind, *words[:arity(kind)])]), (NAME, 2)
    yield 1, 1, flat([gate(RZ, 0, k=8)]), (NAME, 0)
    yield 1, 1, flat([gate(RZ, 0, k=7), gate(CCZ, 0, 1, 2)]), (NAME, 0)
    yield 1, 1, flat([gate(H, 0), gate(RX, MOST), gate(SX, 0)]), (NAME, 1)


def write_cases():
    """(qubits, bits, words, room, answer): each accepted circuit with just enough room; some with a byte more, a byte less and none."""
    out = []
    for j, (qubits, bits, words, (number, index)) in enumerate(circuits()):
        found = write(qubits, bits, words)
        assert found[:2] == (number, index), (words, number, index, found)
        if number:
            out += [(qubits, bits, words, room, found) for room in ((0, 200) if j % 3 == 0 else (200,))]
            continue
        size = len(found[2])
        assert read(found[2]) == (0, qubits, bits, words, 0) and is_sound(found[2])
        for room in (size, size - 1, size + 1, 0) if j % 4 == 0 else (size, size - 1) if j % 2 == 0 else (size,):
            out.append((qubits, bits, words, room, found if size <= room else (SHORT, 0, b"")))
    return out


def main():
    what = sys.argv[1:]
    if what == ["replay"]:
        reading, writing = read_cases(), write_cases()
        sys.stdout.buffer.write(b"%d\n" % (len(reading) + len(writing)))
        for t, room, answer in reading:
            sys.stdout.buffer.write(b"%d 1 %d\n%b\n%b\n" % (READ, len(t), t, numbers([room, *answer[:3], len(answer[3]), answer[4], *answer[3]]).encode()))
        for qubits, bits, words, room, answer in writing:
            sys.stdout.buffer.write(b"%b\n%b" % (numbers([WRITE, 1, qubits, bits, len(words), *words, room, *answer[:2], len(answer[2])]).encode(), answer[2]))
        for name, cases in ("read", reading), ("written", writing):
            replies = {}
            for *_, answer in cases:
                replies[answer[0]] = replies.get(answer[0], 0) + 1
            print(f"texts {name}: {len(cases)} cases by document 02; by verdict {dict(sorted(replies.items()))}", file=sys.stderr)
    elif len(what) == 2 and what[0] == "texts":
        for j, t in enumerate(sorted({t for t, *_ in read_cases()})):
            (pathlib.Path(what[1]) / f"case{j:04}.qasm").write_bytes(t)
    else:
        sys.exit("usage: qasm_cases.py replay | texts DIR")


if __name__ == "__main__":
    main()

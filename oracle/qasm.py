"""OpenQASM 2 as document 02 has it, read and written: a second reading of the paper, for tests.

`read` goes through a text by regular expressions, place by place. `is_sound` is one regular expression for the whole of a text that is read. Neither leans
on the other, nor on the definitions that the code is proved against.
"""
import re

from rules import CCX, CH, CNOT, CSWAP, CY, CZ, H, MEASURE, RESET, S, SDG, SWAP, T, TDG, X, Y, Z, gates, malformed

MOST = 2**32 - 1
HEADER = b"OPENQASM 2.0;"
GATES, SHORT, FORM, NAME = 5, 8, 13, 14  # refusals

# a gate's name, its kind, and what follows: the register of each operand, with a sign between two
KINDS = {b"x": (X, "q"), b"y": (Y, "q"), b"z": (Z, "q"), b"h": (H, "q"), b"s": (S, "q"), b"sdg": (SDG, "q"), b"t": (T, "q"), b"tdg": (TDG, "q"),
         b"cx": (CNOT, "q,q"), b"cz": (CZ, "q,q"), b"cy": (CY, "q,q"), b"ch": (CH, "q,q"), b"swap": (SWAP, "q,q"),
         b"ccx": (CCX, "q,q,q"), b"cswap": (CSWAP, "q,q,q"), b"measure": (MEASURE, "q>c"), b"reset": (RESET, "q")}
NAMES = {kind: (name, form) for name, (kind, form) in KINDS.items()}
SIGNS = {",": b",", ">": b"->"}

# ---- reading, place by place
BLANKS = re.compile(rb"[ \t\n\r]*")
GAP = re.compile(rb"(?:[ \t\n\r]+|//[^\n]*)*")
WORD = re.compile(rb"[A-Za-z_][A-Za-z0-9_]*")
DIGITS = re.compile(rb"[0-9]+")
FIXED = {sign: re.compile(re.escape(sign)) for sign in (b'"qelib1.inc"', b"[", b"]", b",", b"->", b";")}


class Fault(Exception):
    """A refusal's number and the position of the fault."""


class Text:
    """A text, and the position that is reached."""

    def __init__(self, text):
        self.text, self.at = text, BLANKS.match(text).end()
        if not text.startswith(HEADER, self.at):
            raise Fault(FORM, self.at)
        self.at += len(HEADER)

    def take(self, pattern, is_right=None, number=FORM):
        """The next token, behind blanks and comments, as a pattern and a test want it."""
        self.at = GAP.match(self.text, self.at).end()
        found = pattern.match(self.text, self.at)
        if found is None:
            raise Fault(FORM, self.at)
        if is_right and not is_right(found[0]):
            raise Fault(number, self.at)
        self.at = found.end()
        return found[0]

    def fixed(self, *signs):
        for sign in signs:
            self.take(FIXED[sign])

    def keyword(self, word):
        self.take(WORD, lambda w: w == word)

    def among(self, words):
        """A word of these; any other word has a refusal of its own."""
        return self.take(WORD, lambda w: w in words, NAME)

    def index(self):
        """A number in brackets."""
        self.fixed(b"[")
        digits = self.take(DIGITS, lambda d: (d == b"0" or d[:1] != b"0") and (len(d) < 10 or len(d) == 10 and int(d) <= MOST))
        self.fixed(b"]")
        return int(digits)

    def register(self, taken):
        """The name, which is not taken, and the size of a register."""
        name = self.take(WORD, lambda w: b"a" <= w[:1] <= b"z" and w != taken)
        size = self.index()
        self.fixed(b";")
        return name, size

    def is_next(self, word):
        self.at = GAP.match(self.text, self.at).end()
        found = WORD.match(self.text, self.at)
        return found is not None and found[0] == word

    def is_done(self):
        self.at = GAP.match(self.text, self.at).end()
        return self.at == len(self.text)

    def gate(self, names):
        kind, form = KINDS[self.among(KINDS)]
        words = []
        for mark in form:
            if mark in SIGNS:
                self.fixed(SIGNS[mark])
            else:
                self.among(names[mark])
                words.append(self.index())
        self.fixed(b";")
        return [kind, *words, *[0] * (4 - len(words))]


def circuit(given):
    """Both counts and the gates' words of a text, or a Fault."""
    text = Text(given)
    text.keyword(b"include")
    text.fixed(b'"qelib1.inc"', b";")
    text.keyword(b"qreg")
    q, qubits = text.register(None)
    names, bits = {"q": [q], "c": []}, 0
    if text.is_next(b"creg"):
        text.keyword(b"creg")
        c, bits = text.register(q)
        names["c"] = [c]
    words = []
    while not text.is_done():
        words += text.gate(names)
    return qubits, bits, words


def read(text, room=None):
    """(number, qubits, bits, gate words, position), where there is room for so many words, or enough."""
    try:
        qubits, bits, words = circuit(text)
    except Fault as fault:
        number, position = fault.args
        return number, 0, 0, [], position
    if room is not None and len(words) > room:
        return SHORT, 0, 0, [], 0
    return 0, qubits, bits, words, 0


# ---- the whole of a text that is read, as one regular expression
def up_to(top):
    """The decimal numbers up to one, which is given by its digits, with no leading zero."""
    size = len(top) - 1
    below = [b"%b[%d-%d][0-9]{%d}" % (top[:i], i == 0, d - 1, size - i) for i, d in enumerate(map(int, top.decode())) if d > (i == 0)]
    return b"(?:%b)(?![0-9])" % b"|".join([b"0", b"[1-9][0-9]{0,%d}" % (size - 1), *below, top])


def spaced(*tokens):
    """Tokens with blanks and comments, or nothing, between two, and behind the last."""
    return b"".join(token + rb"(?:[ \t\n\r]|//[^\n]*(?:\n|\Z))*" for token in tokens)


def declared(keyword, name):
    return spaced(keyword + rb"\b", name, rb"\[", up_to(b"%d" % MOST), rb"\]", b";")


def sound_gate(name, form):
    tokens = [name + rb"\b"]
    for mark in form:
        tokens += [SIGNS[mark]] if mark in SIGNS else [{"q": rb"(?P=q)\b", "c": rb"(?P=c)\b"}[mark], rb"\[", up_to(b"%d" % MOST), rb"\]"]
    return spaced(*tokens, b";")


SOUND = re.compile(rb"[ \t\n\r]*" + spaced(rb"OPENQASM 2\.0;", rb"include\b", rb'"qelib1\.inc"', b";") + declared(b"qreg", rb"(?P<q>[a-z]\w*)\b")
                   + b"(?:" + declared(b"creg", rb"(?!(?P=q)\b)(?P<c>[a-z]\w*)\b") + b")?"
                   + b"(?:" + b"|".join(sound_gate(name, form) for name, (_, form) in KINDS.items()) + b")*")


def is_sound(text):
    return SOUND.fullmatch(text) is not None


# ---- writing
def line(g):
    name, form = NAMES[g[0]]
    words, out = iter(g[1:]), name + b" "
    for mark in form:
        out += SIGNS[mark] if mark in SIGNS else b"%b[%d]" % (mark.encode(), next(words))
    return out + b";\n"


def write(qubits, bits, words, room=None):
    """(number, index, text), where there is room for so many bytes, or enough."""
    if len(words) % 5:
        return GATES, 0, b""
    gs = gates(words)
    for number, is_fault in ((GATES, malformed), (NAME, lambda g: g[0] not in NAMES)):
        for i, g in enumerate(gs):
            if is_fault(g):
                return number, i, b""
    out = HEADER + b'\ninclude "qelib1.inc";\nqreg q[%d];\ncreg c[%d];\n' % (qubits, bits) + b"".join(map(line, gs))
    if room is not None and len(out) > room:
        return SHORT, 0, b""
    return 0, 0, out

"""What the runs on texts share: lent memory with noise around it, the archive as a library, and a text with other names, blanks and comments."""
import ctypes
import pathlib
import random
import re
import subprocess

import qasm

ROOT = pathlib.Path(__file__).resolve().parent.parent
EDGE = 24  # elements of noise on either side of what is lent
NOISE = random.Random(0).randbytes(1 << 16)


class Disagreement(Exception):
    pass


def lent(element, size, at):
    """Noise, from a place on, for so many elements with their edges: as it was, and as a call is lent it."""
    count = ctypes.sizeof(element) * (size + 2 * EDGE)
    before = (NOISE if at + count <= len(NOISE) else NOISE * (count // len(NOISE) + 2))[at:at + count]
    return before, (element * (size + 2 * EDGE)).from_buffer(bytearray(before))


def inner(array, size):
    """A pointer to what lies between the edges; where that is nothing, now and then no pointer."""
    return ctypes.byref(array, EDGE * ctypes.sizeof(array._type_)) if size or array[0] % 2 else None


def library():
    """The archive, with all of its calls, as a file that can be loaded."""
    archive = subprocess.run([ROOT / "tools" / "archive"], stdout=subprocess.PIPE, text=True, check=True).stdout.strip()
    out = ROOT / "target" / "differential" / "texts"
    out.mkdir(parents=True, exist_ok=True)
    shared = out / "libarchive.so"
    subprocess.run(["cc", "-shared", "-Wl,--whole-archive", archive, "-Wl,--no-whole-archive", "-o", shared], check=True)
    return shared


# ---- texts
REGISTERS = [b"q", b"c", b"x", b"s", b"creg", b"qreg", b"measure", b"q1", b"qq", b"aZ_09", b"reset", b"include", b"cx"]
GAPS = [b" ", b" ", b"\n", b"\t", b"\r", b"\r\n", b"  ", b"//\n", b"// q[0];\n", b"//\r;\n ", b"\n// c\n\n"]
TOKEN = re.compile(rb'"qelib1\.inc"|->|[A-Za-z_][A-Za-z0-9_]*|[0-9]+|[^ \n]')


def loosened(rng, text):
    """The same circuit with other registers' names, and with gaps between the tokens."""
    q, c = rng.sample(REGISTERS, 2) if rng.random() < 0.5 else (b"q", b"c")
    gaps = GAPS if rng.random() < 0.7 else [b" "]
    often = rng.choice([0.05, 0.3, 1])
    out, last = rng.choice([b"", b" ", b"\r\n\t"]) + qasm.HEADER, b";"
    for token in TOKEN.findall(text[len(qasm.HEADER):]):
        if (last[-1:].isalnum() or last[-1:] == b"_") and (token[:1].isalnum() or token[:1] == b"_") or rng.random() < often:
            out += rng.choice(gaps)
        last = {b"q": q, b"c": c}.get(token, token)
        out += last
    return out + rng.choice([b"", b"\n", b" // end", b"//", b" "])

"""Asks the built oracle: one answer for each command line."""
import os
import re
import subprocess


def ask(commands):
    program = os.environ.get("ORACLE", "")
    if not program:
        raise SystemExit("set ORACLE to the program that oracle/build made: DIR/target/release/oracle")
    out = subprocess.run([program, "batch"], input="\n".join(commands) + "\n", capture_output=True, text=True, check=True).stdout
    answers = [[]]
    for line in out.split("\n"):
        if line == ".":
            answers.append([])
        else:
            answers[-1].append(line)
    answers.pop()
    assert len(answers) == len(commands), (len(answers), len(commands))
    return answers


def refusal(answer):
    """(number, index) of a refused answer, else None."""
    m = re.fullmatch(r"refused (\d+) (\d+)", answer[0])
    return (int(m[1]), int(m[2])) if m else None


def matrix(lines):
    """Entry lines as {(row, column): scalar}."""
    out = {}
    for line in lines:
        r, c, *s = map(int, line.split())
        out[r, c] = tuple(s)
    return out


def blocks(answer):
    """A listed channel as (dim, bits, {store: {(row, column): scalar}})."""
    m = re.fullmatch(r"dim (\d+) cbits (\d+) blocks (\d+)", answer[0])
    out, at = {}, None
    for line in answer[1:]:
        if line.startswith("store "):
            at = () if line == "store -" else tuple(map(int, line[6:]))
            out[at] = {}
        else:
            r, c, *s = map(int, line.split())
            out[at][r, c] = tuple(s)
    assert len(out) == int(m[3])
    return int(m[1]), int(m[2]), out

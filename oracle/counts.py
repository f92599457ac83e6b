"""What the replay of a text prints where every answer agrees: for each kind its cases by source, and how many recorded numbers there are to compare.

Reads the text by the form of its cases, as the scripts' heads say, and knows nothing of the program: what a case is given is passed over, and the rest of its
line is its record. (A case of `list` has its record behind its text: the answer's length, and its bytes, each of which counts as a number; so have texts that are read and written.)
"""
import sys


def limits(given):
    return given[7:] if given[0] else given[1:]


def counted(given, size=1):
    """Behind a count and as many groups of `size` numbers."""
    return given[1 + size * given[0]:]


def circuit(given):
    return counted(counted(limits(given)[2:]))


def words(given):
    return counted(given[1:], 2)


RECORD = {
    0: lambda given: given[11:],
    1: lambda given: words(words(given[1:])[1:]),
    2: lambda given: circuit(given[3:]),
    3: lambda given: circuit(given[3:]),
    4: lambda given: circuit(circuit(given)),
    5: lambda given: counted(words(words(given))[1:]),
    7: lambda given: counted(circuit(given[3:])),
    23: lambda given: circuit(given[3:]),
    10: lambda given: counted(counted(counted(given[2:]))),
    17: lambda given: counted(counted(counted(given[4:]))),
    18: lambda given: counted(counted(counted(given[4:]))),
    24: lambda given: counted(counted(given[8:])),
    25: lambda given: counted(words(given)[7:])[3:],
}
LISTING, READ, WRITTEN = 6, 8, 9


def main():
    text, kinds = sys.stdin.buffer, {}
    for _ in range(int(text.readline())):
        kind, source, *given = map(int, text.readline().split())
        counts = kinds.setdefault(kind, [0, 0, 0])
        counts[source] += 1
        if kind == LISTING:
            text.read(given[0] + 1)
            answer = int(text.readline())
            text.read(answer)
            counts[2] += 1 + answer
        elif kind == READ:
            text.read(given[0] + 1)
            counts[2] += len(text.readline().split()) - 1
        elif kind == WRITTEN:
            answer = counted(given[2:])[1:]
            text.read(answer[2])
            counts[2] += 3 + answer[2]
        else:
            counts[2] += len(RECORD[kind](given))
    assert not text.read()
    for kind, (rust, document, compared) in kinds.items():
        print(f"kind {kind}: {rust} agree with the Rust, {document} with the documents, 0 disagree; {compared} numbers compared")


main()

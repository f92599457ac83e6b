"""Document 01 in Python: ranges, questions, word layouts; and the checksum of the replay data.

Used where the Rust cannot be asked (refusals 5 to 10, buffers, record order). Entries of matrices and blocks come from the Rust.
"""

# ---- the largest sizes, either way, and the largest exponents and weight
MAX_NUMERATOR, MAX_EXPONENT = 2**61, 60
NARROW_NUMERATOR, NARROW_EXPONENT = 2**29, 29
MAX_WEIGHT = 56

# ---- scalars: (n0, n1, n2, n3, e)
ZERO = (0, 0, 0, 0, 0)
ONE = (1, 0, 0, 0, 0)


def in_range(s):
    return all(abs(n) <= MAX_NUMERATOR for n in s[:4]) and 0 <= s[4] <= MAX_EXPONENT


def is_lowest(s):
    return s[4] == 0 or any(n % 2 for n in s[:4])


def well_formed(s):
    return in_range(s) and is_lowest(s)


def narrow(s):
    return all(abs(n) <= NARROW_NUMERATOR for n in s[:4]) and 0 <= s[4] <= NARROW_EXPONENT


def lowest(s):
    *n, e = s
    while e > 0 and not any(x % 2 for x in n):
        n = [x // 2 for x in n]
        e -= 1
    return (*n, e)


def mul(x, y):
    (a, b, c, d, e), (p, q, r, s, f) = x, y
    return lowest((a * p + 2 * b * q - c * r - 2 * d * s, a * q + b * p - c * s - d * r,
                   a * r + c * p + 2 * b * s + 2 * d * q, a * s + d * p + b * r + c * q, e + f))


def add(x, y):
    e = max(x[4], y[4])
    return lowest((*(x[i] * 2**(e - x[4]) + y[i] * 2**(e - y[4]) for i in range(4)), e))


def conj(x):
    return (x[0], x[1], -x[2], -x[3], x[4])


def neg(x):
    return (*(-n for n in x[:4]), x[4])


ROOT = (0, 1, 0, 0, 1)  # √2/2
OMEGA = [ONE]
for _ in range(7):
    OMEGA.append(mul(OMEGA[-1], (0, 1, 0, 1, 1)))

# ---- gates: (kind, a, b, c, k)
(H, X, Z, S, SDG, T, TDG, RZ, CNOT, CZ, CCX, CCZ, MEASURE, RESET, P, Y, SX, RX, RY, SWAP, CY, CP, CRX, CRY, CRZ, CH, CSWAP) = range(27)
UNSUPPORTED = {P, RX, RY, CP, CRX, CRY, CRZ}
TWO = {CNOT, CZ, SWAP, CY, CP, CRX, CRY, CRZ, CH}
THREE = {CCX, CCZ, CSWAP}
WEIGHT = {H: 1, CH: 1, SX: 1}


def arity(kind):
    return 3 if kind in THREE else 2 if kind in TWO else 1


def qubits(g):
    return g[1:1 + arity(g[0])]


def malformed(g):
    """Question 4."""
    kind = g[0]
    if kind > 26 or g[4] > (8 if kind == RZ else 0):
        return True
    used = arity(kind) + (kind == MEASURE)
    return any(g[1 + used:4])


def bad_operand(g, n, bits):
    """Question 5; bits is None where the classical bit is ignored."""
    q = qubits(g)
    if any(x >= n for x in q) or len(set(q)) < len(q):
        return True
    return g[0] == MEASURE and bits is not None and g[2] >= bits


def unsupported(g, unitary=False):
    """Question 6."""
    return g[0] in UNSUPPORTED or (g[0] == RZ and g[4] == 8) or (unitary and g[0] in (MEASURE, RESET))


# the plain-gate profile, as document 02 lists it; rz by its k
PROFILE = {X, Y, Z, H, S, SDG, SX, CNOT, CZ, CY, SWAP, MEASURE, RESET}


def outside(g):
    """Question 23."""
    return g[0] not in PROFILE and (g[0] != RZ or g[4] not in (0, 2, 4, 6))


def gates(words):
    return [tuple(words[i:i + 5]) for i in range(0, len(words) - len(words) % 5, 5)]


def gate_faults(gs, n, bits, unitary, plain=False):
    for i, g in enumerate(gs):
        if malformed(g):
            return (5, i)
        if bad_operand(g, n, bits):
            return (3, i)
        if unsupported(g, unitary):
            return (2, i)
        if plain and outside(g):
            return (23, i)
    return None


CEILINGS = (5, 262144, 10000000, 1024, 64, 64)  # qubits, cells, terms, operations, branches, bits


def weight(gs):
    return sum(WEIGHT.get(g[0], 0) for g in gs)


def counts(gs):
    splits = sum(g[0] in (MEASURE, RESET) for g in gs)
    return splits, len({g[2] for g in gs if g[0] == MEASURE})


def channel_sizes(n, gs):
    """Result and work words that question 10 asks for."""
    s, t = counts(gs)
    d = 2**n
    return HEADER + 2**min(s, t) * record_size(d * d), (2 * 2**s + 2) * (5 * d * d + 2)


def split(splits, written):
    """Gates with so many measures and resets, and so many bits measured into, as far as there are measures."""
    bits = min(splits, written)
    return [(MEASURE, 0, b, 0, 0) for b in range(bits)] + [(RESET, 0, 0, 0, 0)] * (splits - bits)


def unitary_sizes(n):
    d = 2**n
    return 5 * d * d, 4 * (5 * d * d + 2)


def layer_faults(gs, ends):
    """Questions 11 and 12: the ends of the layers, then each layer's gates, whose qubits and bits are gathered."""
    if any(e <= last for last, e in zip([0, *ends], ends)) or (ends[-1] if ends else 0) != len(gs):
        return (11, 0)
    for start, end in zip([0, *ends], ends):
        used = set()
        for i in range(start, end):
            mine = wires(gs[i])
            if used & mine:
                return (12, i)
            used |= mine
    return None


def wires(g):
    """The qubits and bits that a gate uses."""
    return {("qubit", q) for q in qubits(g)} | ({("bit", g[2])} if g[0] == MEASURE else set())


def schedule_verdict(n, bits, old, new, table):
    """judge_schedule's questions: (number, index)."""
    for words in (old, new):
        if len(words) % 5:
            return (5, 0)
        for i, g in enumerate(gates(words)):
            if malformed(g):
                return (5, i)
            if bad_operand(g, n, bits):
                return (3, i)
    old, new = gates(old), gates(new)
    if not len(old) == len(new) == len(table):
        return (15, 0)
    used, latest = set(), {}
    for i, (g, k) in enumerate(zip(new, table)):
        if k >= len(old) or k in used or old[k] != g or any(latest.get(w, -1) > k for w in wires(g)):
            return (15, i)
        used.add(k)
        latest.update({w: k for w in wires(g)})
    return (0, 0)


def channel_verdict(limits, n, bits, store, words, result, work, ends=None, plain=False):
    """circuit_channel's ten questions, with `ends` layered_channel's, and those of plain_channel: (number, index)."""
    if any(a > b for a, b in zip(limits, CEILINGS)):
        return (6, 0)
    if len(words) % 5:
        return (5, 0)
    gs = gates(words)
    if len(gs) > limits[3]:
        return (1, 0)
    if fault := gate_faults(gs, n, bits, False, plain) or (layer_faults(gs, ends) if ends is not None else None):
        return fault
    if len(store) != bits or any(b > 1 for b in store):
        return (4, 0)
    s, t = counts(gs)
    if bits > limits[5] or 2**s > limits[4] or n > limits[0]:
        return (1, 0)
    b, v, d = 2**s, 2**min(s, t), 2**n
    if v * d**4 + (3 * b + 8) * d * d > limits[1] or 2 * len(gs) * b * d**3 + b * d**4 > limits[2]:
        return (1, 0)
    if weight(gs) > MAX_WEIGHT:
        return (7, 0)
    want = channel_sizes(n, gs)
    if result < want[0] or work < want[1]:
        return (8, 0)
    return (0, 0)


def unitary_verdict(limits, n, words, result, work):
    """circuit_unitary's questions: (number, index)."""
    if any(a > b for a, b in zip(limits[:4], CEILINGS)):
        return (6, 0)
    if len(words) % 5:
        return (5, 0)
    gs = gates(words)
    if n > limits[0] or len(gs) > limits[3]:
        return (1, 0)
    d = 2**n
    if 8 * d * d > limits[1] or d**3 * len(gs) > limits[2]:
        return (1, 0)
    if fault := gate_faults(gs, n, None, True):
        return fault
    if weight(gs) > MAX_WEIGHT:
        return (7, 0)
    want = unitary_sizes(n)
    if result < want[0] or work < want[1]:
        return (8, 0)
    return (0, 0)


# ---- branches: which stores survive, in branch order
def small(g):
    """The operators of a gate: a list of (matrix by row and column bits of its qubits, outcome or None)."""
    kind = g[0]
    one, zero, i = ONE, ZERO, (0, 0, 1, 0, 0)

    def controlled(m, controls):
        d = 2**controls * len(m)
        at = d - len(m)
        return [[m[r - at][c - at] if r >= at and c >= at else (one if r == c else zero) for c in range(d)] for r in range(d)]

    x, y, z = [[zero, one], [one, zero]], [[zero, neg(i)], [i, zero]], [[one, zero], [zero, neg(one)]]
    h = [[ROOT, ROOT], [ROOT, neg(ROOT)]]
    p, q = (1, 0, 1, 0, 1), (1, 0, -1, 0, 1)
    swap = [[one if r == [0, 2, 1, 3][c] else zero for c in range(4)] for r in range(4)]
    phase = {S: 2, SDG: 6, T: 1, TDG: 7, RZ: g[4]}
    if kind == MEASURE:
        return [([[one, zero], [zero, zero]], 0), ([[zero, zero], [zero, one]], 1)]
    if kind == RESET:
        return [([[one, zero], [zero, zero]], None), ([[zero, one], [zero, zero]], None)]
    if kind in phase:
        return [([[one, zero], [zero, OMEGA[phase[kind]]]], None)]
    m = {H: h, X: x, Y: y, Z: z, SX: [[p, q], [q, p]], CNOT: controlled(x, 1), CZ: controlled(z, 1), CY: controlled(y, 1),
         CH: controlled(h, 1), CCX: controlled(x, 2), CCZ: controlled(z, 2), SWAP: swap, CSWAP: controlled(swap, 1)}[kind]
    return [(m, None)]


def left_multiply(n, qs, m, kraus):
    """The operator m on qubits qs, times a matrix kept as {(row, column): scalar} without zeros."""
    out = {}
    masks = [1 << (n - 1 - q) for q in qs]
    clear = ~sum(masks)
    for (r, c), v in kraus.items():
        col = 0
        for mask in masks:
            col = 2 * col + (1 if r & mask else 0)
        for row in range(len(m)):
            if m[row][col] == ZERO:
                continue
            to = r & clear
            for j, mask in enumerate(masks):
                if row >> (len(masks) - 1 - j) & 1:
                    to |= mask
            s = mul(m[row][col], v)
            key = (to, c)
            s = add(out[key], s) if key in out else s
            if s == ZERO:
                out.pop(key, None)
            else:
                out[key] = s
    return out


def branches(n, store, gs):
    now = [({(j, j): ONE for j in range(2**n)}, tuple(store))]
    for g in gs:
        after = []
        for kraus, st in now:
            for m, outcome in small(g):
                t = st
                if outcome is not None:
                    t = st[:g[2]] + (outcome,) + st[g[2] + 1:]
                after.append((left_multiply(n, qubits(g), m, kraus), t))
        now = after
    return now


def store_order(n, store, gs):
    """Stores in the order of their first surviving branches."""
    order = []
    for kraus, st in branches(n, store, gs):
        if kraus and st not in order:
            order.append(st)
    return order


# ---- words: a header, then records of next, two store words, the exponent that a block shares, and four numerators an entry
HEADER, HEAD, EXPONENT, ENTRY = 4, 4, 3, 4


def record_size(width):
    """The words of a record whose block has so many rows."""
    return HEAD + ENTRY * width * width


def shared(block):
    """The exponent that scalars in lowest form share, the largest of theirs, and their numerators over it."""
    e = max((s[4] for s in block.values()), default=0)
    return e, {at: [n * 2**(e - s[4]) for n in s[:4]] for at, s in block.items()}


def shared_fits(block):
    """Whether the numerators at the shared exponent are in range."""
    e, numerators = shared(block)
    return all(in_range((*n, e)) for n in numerators.values())


def channel_words(dim, bits, order, blocks, width):
    """The words of records in this order; blocks maps a store to {(row, column): scalar}, of width rows."""
    size = record_size(width)
    place = {s: HEADER + j * size for j, s in enumerate(order)}
    chain = sorted(order)
    after = {s: place[t] for s, t in zip(chain, chain[1:])}
    words = [dim, bits, len(order), place[chain[0]] if chain else 0]
    for s in order:
        low = sum(b << j for j, b in enumerate(s[:32]))
        high = sum(b << j for j, b in enumerate(s[32:]))
        e, numerators = shared(blocks[s])
        record = [after.get(s, 0), low, high, e] + [0] * (ENTRY * width * width)
        for (r, c), n in numerators.items():
            at = HEAD + ENTRY * (r * width + c)
            record[at:at + ENTRY] = n
        words += record
    return words


# ---- the checksum
PRIME = 2**31 - 1
BASES = (1103515245, 362437069)


def checksum(words):
    """Two polynomial sums mod 2^31 − 1, over the low 31 and the high bits of w + 2^61, as one number."""
    sums = []
    for base in BASES:
        h = 0
        for w in words:
            v = w + 2**61
            h = (h * base + v % 2**31) % PRIME
            h = (h * base + v // 2**31) % PRIME
        sums.append(h)
    return sums[0] * 2**31 + sums[1]


# ---- channels read from words
def read_channel(words):
    """(dim, bits, [(store, record start)] along the chain), or None where the words are malformed."""
    if len(words) < 4:
        return None
    dim, bits, count, at = words[:4]
    if dim not in (1, 2, 4, 8, 16) or not 0 <= bits <= 64:
        return None
    size = record_size(dim * dim)
    if count < 0 or HEADER + count * size > len(words):
        return None
    chain, seen, last = [], set(), None
    for _ in range(count):
        if at < HEADER or (at - HEADER) % size or (at - HEADER) // size >= count or at in seen:
            return None
        seen.add(at)
        low, high = words[at + 1], words[at + 2]
        if not (0 <= low < 2**32 and 0 <= high < 2**32) or (low + (high << 32)) >> bits:
            return None
        store = tuple((low + (high << 32)) >> j & 1 for j in range(bits))
        if last is not None and store <= last:
            return None
        e, numerators = words[at + EXPONENT], words[at + HEAD:at + size]
        if not 0 <= e <= MAX_EXPONENT or any(abs(n) > MAX_NUMERATOR for n in numerators) or (e > 0 and not any(n % 2 for n in numerators)):
            return None
        chain.append((store, at))
        last, at = store, words[at]
    return (dim, bits, chain) if at == 0 else None


def block_at(words, dim, at):
    """The entries of a record that are not 0, in lowest form."""
    width = dim * dim
    cells = ((j, words[at + HEAD + ENTRY * j:at + HEAD + ENTRY * (j + 1)]) for j in range(width * width))
    return {(j // width, j % width): lowest((*n, words[at + EXPONENT])) for j, n in cells if any(n)}


def words_verdict(words):
    """10 where the words are malformed, then 16 where a block has no entry but zeros, else 0."""
    channel = read_channel(words)
    if channel is None:
        return 10
    dim, _, chain = channel
    return 0 if all(block_at(words, dim, at) for _, at in chain) else 16


def effects_fit(dim, block):
    """Whether every partial sum of classical_blocks is in range in lowest form, and the finished effect at its shared exponent."""
    effect = {}
    for r in range(dim):
        for c in range(dim):
            s = ZERO
            for o in range(dim):
                s = add(s, block.get((o * dim + r, o * dim + c), ZERO))
                if not in_range(s):
                    return False
            effect[r, c] = s
    return shared_fits(effect)

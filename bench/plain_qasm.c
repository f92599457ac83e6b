/*
 * read_qasm and write_qasm as a plain C program would have them, by document 02's rules and with no proofs. The benchmark measures it beside the archive; the
 * runs over texts and the fuzzer compare the two.
 *
 * A refusal leaves the caller's room alone, so both calls go through their input twice: to judge it, and to write.
 */
#include <stdbool.h>
#include <stddef.h>
#include <stdint.h>
#include <string.h>

#ifdef PLAIN_AS_ARCHIVE /* the archive's names, to try a harness without the archive */
#define CALL(name) foreituka_##name
#else
#define CALL(name) plain_##name
#endif

enum { ACCEPTED = 0, GATES = 5, SHORT = 8, FORM = 13, NAME = 14 };
enum { H, X, Z, S, SDG, T, TDG, RZ, CNOT, CZ, CCX, CCZ, MEASURE, RESET, P, Y, SX, RX, RY, SWAP, CY, CP, CRX, CRY, CRZ, CH, CSWAP, KINDS };
enum { WORDS = 5 }; /* of a gate */

/* a kind's name in a text, if it has one, and how many of the words a, b, c it uses */
static const struct {
    char name[8];
    uint8_t bytes, used;
} kinds[KINDS] = {
    [H] = {"h", 1, 1},           [X] = {"x", 1, 1},       [Y] = {"y", 1, 1},       [Z] = {"z", 1, 1},         [S] = {"s", 1, 1},       [SDG] = {"sdg", 3, 1},
    [T] = {"t", 1, 1},           [TDG] = {"tdg", 3, 1},   [CNOT] = {"cx", 2, 2},   [CZ] = {"cz", 2, 2},       [CY] = {"cy", 2, 2},     [CH] = {"ch", 2, 2},
    [SWAP] = {"swap", 4, 2},     [CCX] = {"ccx", 3, 3},   [CSWAP] = {"cswap", 5, 3}, [MEASURE] = {"measure", 7, 2}, [RESET] = {"reset", 5, 1},
    [RZ] = {"", 0, 1},           [P] = {"", 0, 1},        [SX] = {"", 0, 1},       [RX] = {"", 0, 1},         [RY] = {"", 0, 1},       [CP] = {"", 0, 2},
    [CRX] = {"", 0, 2},          [CRY] = {"", 0, 2},      [CRZ] = {"", 0, 2},      [CCZ] = {"", 0, 3}};

/* ---- reading ---- */

enum { BLANK = 1, LETTER = 2, SMALL = 4, DIGIT = 8 };
static const uint8_t class_of[256] = {[' '] = BLANK, ['\t'] = BLANK, ['\n'] = BLANK, ['\r'] = BLANK, ['A' ... 'Z'] = LETTER, ['_'] = LETTER,
                                      ['a' ... 'z'] = LETTER | SMALL, ['0' ... '9'] = DIGIT};

typedef struct {
    const uint8_t *at, *end;
    const uint8_t *name[2]; /* the quantum register's and the classical one's */
    size_t bytes[2];        /* of these names; 0 before the register is declared */
    const uint8_t *gates;   /* where they begin */
    uint32_t refusal;
} reader;

static inline bool is(const reader *r, const uint8_t *p, int class) { return p < r->end && (class_of[*p] & class); }

static inline bool refuse(reader *r, uint32_t number) {
    r->refusal = number;
    return false;
}

/* behind blanks and comments */
static inline const uint8_t *skip(const reader *r, const uint8_t *p) {
    if (p < r->end && *p > ' ' && *p != '/') return p; /* most often there are none */
    for (;;) {
        while (is(r, p, BLANK)) p++;
        if (r->end - p < 2 || p[0] != '/' || p[1] != '/') return p;
        p = memchr(p, '\n', (size_t)(r->end - p));
        if (!p) return r->end;
    }
}

static inline bool begins(const reader *r, const char *bytes, size_t count) {
    return (size_t)(r->end - r->at) >= count && memcmp(r->at, bytes, count) == 0;
}

static inline bool sign(reader *r, const char *bytes, size_t count) {
    r->at = skip(r, r->at);
    if (!begins(r, bytes, count)) return refuse(r, FORM);
    r->at += count;
    return true;
}

/* the length of the word at p; 0 where there is none */
static inline size_t word_at(const reader *r, const uint8_t *p) {
    const uint8_t *q = p;
    if (is(r, q, LETTER))
        while (is(r, ++q, LETTER | DIGIT)) {}
    return (size_t)(q - p);
}

static inline bool is_keyword(reader *r, const char *word, size_t count) {
    r->at = skip(r, r->at);
    return begins(r, word, count) && !is(r, r->at + count, LETTER | DIGIT);
}

static inline bool keyword(reader *r, const char *word, size_t count) {
    if (!is_keyword(r, word, count)) return refuse(r, FORM);
    r->at += count;
    return true;
}

static inline bool number(reader *r, uint32_t *value) {
    const uint8_t *p = r->at = skip(r, r->at);
    uint64_t n = 0;
    while (is(r, p, DIGIT) && n <= UINT32_MAX) n = 10 * n + (*p++ - '0');
    if (p == r->at || n > UINT32_MAX || (p - r->at > 1 && *r->at == '0')) return refuse(r, FORM);
    r->at = p;
    *value = (uint32_t)n;
    return true;
}

static inline bool is_register(const reader *r, int which) {
    size_t n = r->bytes[which], i = 0;
    if (n == 0 || (size_t)(r->end - r->at) < n) return false;
    while (i < n && r->at[i] == r->name[which][i]) i++;
    return i == n && !is(r, r->at + n, LETTER | DIGIT);
}

static inline bool operand(reader *r, int which) {
    r->at = skip(r, r->at);
    if (!is_register(r, which)) return refuse(r, is(r, r->at, LETTER) ? NAME : FORM);
    r->at += r->bytes[which];
    uint32_t value;
    return sign(r, "[", 1) && number(r, &value) && sign(r, "]", 1);
}

static bool declare(reader *r, int which, uint32_t *size) {
    r->at = skip(r, r->at);
    if (!is(r, r->at, SMALL) || (which == 1 && is_register(r, 0))) return refuse(r, FORM);
    r->name[which] = r->at;
    r->bytes[which] = word_at(r, r->at);
    r->at += r->bytes[which];
    return sign(r, "[", 1) && number(r, size) && sign(r, "]", 1) && sign(r, ";", 1);
}

/* the kind of a name of n bytes, or KINDS */
static inline unsigned kind_of(const uint8_t *p, size_t n) {
    switch (n) {
    case 1:
        switch (*p) {
        case 'h': return H;
        case 'x': return X;
        case 'z': return Z;
        case 's': return S;
        case 't': return T;
        case 'y': return Y;
        default: return KINDS;
        }
    case 2:
        if (p[0] != 'c') return KINDS;
        switch (p[1]) {
        case 'x': return CNOT;
        case 'z': return CZ;
        case 'y': return CY;
        case 'h': return CH;
        default: return KINDS;
        }
    case 3: return !memcmp(p, "sdg", 3) ? SDG : !memcmp(p, "tdg", 3) ? TDG : !memcmp(p, "ccx", 3) ? CCX : KINDS;
    case 4: return !memcmp(p, "swap", 4) ? SWAP : KINDS;
    case 5: return !memcmp(p, "reset", 5) ? RESET : !memcmp(p, "cswap", 5) ? CSWAP : KINDS;
    case 7: return !memcmp(p, "measure", 7) ? MEASURE : KINDS;
    default: return KINDS;
    }
}

static bool judge_text(reader *r, uint32_t counts[2], size_t *words) {
    while (is(r, r->at, BLANK)) r->at++;
    if (!begins(r, "OPENQASM 2.0;", 13)) return refuse(r, FORM);
    r->at += 13;
    if (!keyword(r, "include", 7) || !sign(r, "\"qelib1.inc\"", 12) || !sign(r, ";", 1) || !keyword(r, "qreg", 4) || !declare(r, 0, &counts[0])) return false;
    if (is_keyword(r, "creg", 4)) {
        r->at += 4;
        if (!declare(r, 1, &counts[1])) return false;
    }
    r->gates = r->at;
    for (;; *words += WORDS) {
        r->at = skip(r, r->at);
        if (r->at == r->end) return true;
        size_t n = word_at(r, r->at);
        if (n == 0) return refuse(r, FORM);
        unsigned kind = kind_of(r->at, n);
        if (kind == KINDS) return refuse(r, NAME);
        r->at += n;
        if (!operand(r, 0)) return false;
        if (kind == MEASURE) {
            if (!sign(r, "->", 2) || !operand(r, 1)) return false;
        } else {
            for (unsigned i = 1; i < kinds[kind].used; i++)
                if (!sign(r, ",", 1) || !operand(r, 0)) return false;
        }
        if (!sign(r, ";", 1)) return false;
    }
}

/* the words of a text that has been judged */
static void put_words(const reader *r, uint32_t *gates) {
    const uint8_t *p = skip(r, r->gates);
    for (; p < r->end; p = skip(r, p), gates += WORDS) {
        size_t n = word_at(r, p);
        unsigned kind = kind_of(p, n), used = kinds[kind].used;
        memset(gates, 0, WORDS * sizeof *gates);
        gates[0] = kind;
        p += n;
        for (unsigned i = 1; i <= used; i++) {
            p = skip(r, skip(r, p) + r->bytes[kind == MEASURE && i == 2]) + 1; /* the register and [ */
            uint32_t v = 0;
            for (p = skip(r, p); class_of[*p] & DIGIT; p++) v = 10 * v + (*p - '0');
            p = skip(r, p) + 1;                                  /* ] */
            p = skip(r, p) + (kind == MEASURE && i == 1 ? 2 : 1); /* the sign behind it */
            gates[i] = v;
        }
    }
}

uint32_t CALL(read_qasm)(const uint8_t *text, size_t text_bytes, uint32_t *gates, size_t gate_words, uint32_t counts[2], size_t *words, size_t *position) {
    reader r = {.at = text, .end = text_bytes ? text + text_bytes : text};
    uint32_t sizes[2] = {0, 0};
    size_t needed = 0;
    counts[0] = counts[1] = 0;
    *words = *position = 0;
    if (!judge_text(&r, sizes, &needed)) {
        *position = (size_t)(r.at - text);
        return r.refusal;
    }
    if (needed > gate_words) return SHORT;
    put_words(&r, gates);
    counts[0] = sizes[0];
    counts[1] = sizes[1];
    *words = needed;
    return ACCEPTED;
}

/* ---- writing ---- */

static inline unsigned digits(uint32_t v) {
    unsigned n = 1;
    while (v > 9) {
        v /= 10;
        n++;
    }
    return n;
}

static inline uint8_t *put(uint8_t *out, const char *bytes, size_t count) {
    memcpy(out, bytes, count);
    return out + count;
}

static inline uint8_t *decimal(uint8_t *out, uint32_t v) {
    unsigned n = digits(v);
    for (unsigned i = n; i-- > 0; v /= 10) out[i] = (uint8_t)('0' + v % 10);
    return out + n;
}

static bool is_malformed(const uint32_t *g) {
    if (g[0] >= KINDS || g[4] > (g[0] == RZ ? 8u : 0u)) return true;
    for (unsigned i = kinds[g[0]].used; i < 3; i++)
        if (g[1 + i]) return true;
    return false;
}

static const char head[] = "OPENQASM 2.0;\ninclude \"qelib1.inc\";\nqreg q[", middle[] = "];\ncreg c[", tail[] = "];\n";

/* the bytes of a gate's line: its name, and for each operand a sign or a blank, the register, brackets and digits; the arrow has one more; then ; and newline */
static inline size_t line_bytes(const uint32_t *g) {
    size_t n = kinds[g[0]].bytes + (g[0] == MEASURE) + 2;
    for (unsigned i = 1; i <= kinds[g[0]].used; i++) n += 4 + digits(g[i]);
    return n;
}

static inline uint8_t *put_line(uint8_t *out, const uint32_t *g) {
    out = put(out, kinds[g[0]].name, kinds[g[0]].bytes);
    out = decimal(put(out, " q[", 3), g[1]);
    if (g[0] == MEASURE) {
        out = decimal(put(out, "]->c[", 5), g[2]);
    } else {
        for (unsigned i = 2; i <= kinds[g[0]].used; i++) out = decimal(put(out, "],q[", 4), g[i]);
    }
    return put(out, tail, sizeof tail - 1);
}

uint32_t CALL(write_qasm)(uint32_t qubits, uint32_t bits, const uint32_t *gates, size_t gate_words, uint8_t *out, size_t out_bytes, size_t *bytes, uint64_t *index) {
    *bytes = 0;
    *index = 0;
    if (gate_words % WORDS) return GATES;
    size_t count = gate_words / WORDS, nameless = count, needed = sizeof head + sizeof middle + sizeof tail - 3 + digits(qubits) + digits(bits);
    for (size_t i = 0; i < count; i++) {
        const uint32_t *g = gates + WORDS * i;
        if (is_malformed(g)) {
            *index = i;
            return GATES;
        }
        if (kinds[g[0]].bytes == 0 && nameless == count) nameless = i;
        needed += line_bytes(g);
    }
    if (nameless < count) {
        *index = nameless;
        return NAME;
    }
    if (needed > out_bytes) return SHORT;
    uint8_t *at = decimal(put(out, head, sizeof head - 1), qubits);
    at = put(decimal(put(at, middle, sizeof middle - 1), bits), tail, sizeof tail - 1);
    for (size_t i = 0; i < count; i++) at = put_line(at, gates + WORDS * i);
    *bytes = needed;
    return ACCEPTED;
}

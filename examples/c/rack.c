/*
 * A judge in a control rack: static buffers, no heap. A compiler pass has rewritten the circuit that a lab sent; before the rack runs the
 * new one, it asks whether both do the same, and prints the first difference if not. The rack fires gates in layers: a circuit may come with
 * the ends of its layers, none of which uses a qubit or a classical bit twice; a scheduler hands in the old position of each gate. Or the circuit
 * comes as a text in OpenQASM 2.
 */
#include "foreituka.h"

#include <inttypes.h>
#include <stdio.h>
#include <string.h>

enum { QUBITS = 2, BITS = 2, SPLITS = 2 };

/* no ends: a list of gates, one after the other */
typedef struct {
    const char *name;
    const uint32_t *gates;
    size_t words;
    const uint32_t *ends;
    size_t layers;
} circuit;

#define COUNT(a) (sizeof(a) / sizeof((a)[0]))
#define CIRCUIT(name, gates) {name, gates, COUNT(gates), NULL, 0}
#define LAYERED(name, gates, ends) {name, gates, COUNT(gates), ends, COUNT(ends)}

static const uint32_t sent[] = {
    FOREITUKA_GATE_H,       0, 0, 0, 0,
    FOREITUKA_GATE_T,       0, 0, 0, 0,
    FOREITUKA_GATE_H,       0, 0, 0, 0,
    FOREITUKA_GATE_X,       1, 0, 0, 0,
    FOREITUKA_GATE_CNOT,    0, 1, 0, 0,
    FOREITUKA_GATE_MEASURE, 0, 0, 0, 0,
    FOREITUKA_GATE_MEASURE, 1, 1, 0, 0,
};
/* x on qubit 1 shares nothing with the three gates before it, and two measures of different qubits share nothing */
static const uint32_t scheduled[] = {
    FOREITUKA_GATE_X,       1, 0, 0, 0,
    FOREITUKA_GATE_H,       0, 0, 0, 0,
    FOREITUKA_GATE_T,       0, 0, 0, 0,
    FOREITUKA_GATE_H,       0, 0, 0, 0,
    FOREITUKA_GATE_CNOT,    0, 1, 0, 0,
    FOREITUKA_GATE_MEASURE, 1, 1, 0, 0,
    FOREITUKA_GATE_MEASURE, 0, 0, 0, 0,
};
/* the old positions of these gates, by which a scheduler says what it did; and a table that names the first h twice */
static const uint32_t positions[] = {3, 0, 1, 2, 4, 6, 5};
static const uint32_t repeated[] = {3, 0, 1, 0, 4, 6, 5};
/* t turned round */
static const uint32_t mistaken[] = {
    FOREITUKA_GATE_H,       0, 0, 0, 0,
    FOREITUKA_GATE_TDG,     0, 0, 0, 0,
    FOREITUKA_GATE_H,       0, 0, 0, 0,
    FOREITUKA_GATE_X,       1, 0, 0, 0,
    FOREITUKA_GATE_CNOT,    0, 1, 0, 0,
    FOREITUKA_GATE_MEASURE, 0, 0, 0, 0,
    FOREITUKA_GATE_MEASURE, 1, 1, 0, 0,
};
/* qubit 2 does not exist */
static const uint32_t misplaced[] = {
    FOREITUKA_GATE_H,       0, 0, 0, 0,
    FOREITUKA_GATE_CNOT,    0, 2, 0, 0,
};

/* x with the first h, and both measures at once */
static const uint32_t together[] = {2, 3, 4, 5, 7};
/* h and t on qubit 0 at once */
static const uint32_t crowded[] = {3, 4, 5, 7};
/* the last two gates belong to no layer */
static const uint32_t open_ended[] = {2, 3, 4, 5};

static const circuit original = CIRCUIT("sent", sent);
static const circuit rewritten[] = {
    CIRCUIT("scheduled", scheduled),
    CIRCUIT("mistaken", mistaken),
    CIRCUIT("misplaced", misplaced),
    LAYERED("layered", scheduled, together),
    LAYERED("crowded", scheduled, crowded),
    LAYERED("open-ended", scheduled, open_ended),
};
#define TOP "OPENQASM 2.0;\ninclude \"qelib1.inc\";\nqreg q[2];\ncreg c[2];\n"
/* the schedule as a compiler prints it, and a text with a gate that is none of those that are read */
static const char printed[] = TOP "x q[1];\nh q[0];\nt q[0];\nh q[0];\ncx q[0],q[1];\nmeasure q[1] -> c[1];\nmeasure q[0] -> c[0]; // done\n";
static const char unknown[] = TOP "x q[1];\nu q[0];\n";

static const uint8_t store[BITS] = {0, 0};
static const uint64_t limits[6] = FOREITUKA_DEFAULT_LIMITS;

static int64_t left[FOREITUKA_CHANNEL_WORDS(QUBITS, BITS)];
static int64_t right[FOREITUKA_CHANNEL_WORDS(QUBITS, BITS)];
static int64_t work[FOREITUKA_CHANNEL_WORK_WORDS(QUBITS, SPLITS)];

static uint32_t judge(const circuit *c, int64_t *result, uint64_t *index) {
    if (c->ends)
        return foreituka_layered_channel(QUBITS, BITS, store, sizeof store, c->gates, c->words, c->ends, c->layers, limits, result, COUNT(left),
                                         work, COUNT(work), index);
    return foreituka_circuit_channel(QUBITS, BITS, store, sizeof store, c->gates, c->words, limits, result, COUNT(left), work, COUNT(work), index);
}

/* the same, before any buffer is at hand */
static uint32_t verdict_alone(const circuit *c, uint64_t *index) {
    return foreituka_layered_verdict(QUBITS, BITS, store, sizeof store, c->gates, c->words, c->ends, c->layers, limits, COUNT(left), COUNT(work),
                                     index);
}

static void print_scalar(const int64_t *x) {
    printf("(%" PRId64 " + %" PRId64 "√2 + %" PRId64 "i + %" PRId64 "i√2) / 2^%" PRId64, x[0], x[1], x[2], x[3], x[4]);
}

static uint32_t check(const circuit *c) {
    uint64_t index, alone, place[3];
    int64_t scalars[10];
    uint32_t verdict = judge(c, right, &index);
    printf("%s: ", c->name);
    if (c->ends && (verdict_alone(c, &alone) != verdict || alone != index)) {
        printf("the verdict alone is another\n");
        return UINT32_MAX;
    }
    if (verdict != FOREITUKA_ACCEPTED) {
        printf("refused %" PRIu32 ", index %" PRIu64 "\n", verdict, index);
        return verdict;
    }
    verdict = foreituka_compare(left, COUNT(left), right, COUNT(right), place, scalars);
    switch (verdict) {
    case FOREITUKA_SAME:
        printf("same\n");
        break;
    case FOREITUKA_ENTRY:
        printf("differs at store ");
        for (int j = 0; j < BITS; j++) putchar((int)('0' + (place[0] >> j & 1)));
        printf(", row %" PRIu64 ", column %" PRIu64 ": ", place[1], place[2]);
        print_scalar(scalars);
        printf(" against ");
        print_scalar(scalars + 5);
        printf("\n");
        break;
    default:
        printf("not compared: %" PRIu32 "\n", verdict);
    }
    return verdict;
}

/* a schedule by its table: nothing is run, and it has the channel of what was sent */
static uint32_t check_table(const char *name, const uint32_t *table, size_t entries) {
    uint64_t index;
    uint32_t verdict = foreituka_judge_schedule(QUBITS, BITS, sent, COUNT(sent), scheduled, COUNT(scheduled), table, entries, &index);
    if (verdict == FOREITUKA_ACCEPTED)
        printf("%s: a schedule\n", name);
    else
        printf("%s: refused %" PRIu32 ", index %" PRIu64 "\n", name, verdict, index);
    return verdict;
}

/* a circuit that comes as a text */
static uint32_t check_text(const char *name, const char *text) {
    static uint32_t gates[5 * 16];
    uint32_t counts[2];
    size_t words, position;
    uint32_t verdict = foreituka_read_qasm((const uint8_t *)text, strlen(text), gates, COUNT(gates), counts, &words, &position);
    if (verdict != FOREITUKA_ACCEPTED || counts[0] != QUBITS || counts[1] != BITS) {
        printf("%s: refused %" PRIu32 " at byte %zu, %" PRIu32 " qubits and %" PRIu32 " bits\n", name, verdict, position, counts[0], counts[1]);
        return verdict;
    }
    circuit c = {name, gates, words, NULL, 0};
    return check(&c);
}

/* the circuit that was sent, as a text */
static uint32_t write_text(const circuit *c) {
    static uint8_t text[FOREITUKA_TEXT_BYTES(16)];
    uint64_t index;
    size_t bytes;
    uint32_t verdict = foreituka_write_qasm(QUBITS, BITS, c->gates, c->words, text, sizeof text, &bytes, &index);
    printf("%s, as a text:\n%.*s", c->name, (int)bytes, (const char *)text);
    return verdict;
}

int main(void) {
    static char line[256];
    static const uint32_t expected[] = {FOREITUKA_SAME, FOREITUKA_ENTRY, FOREITUKA_OPERAND, FOREITUKA_SAME, FOREITUKA_CLASH, FOREITUKA_LAYERS};
    uint64_t index;
    int wrong = 0;
    setvbuf(stdout, line, _IOLBF, sizeof line); /* else stdio would take a buffer from the heap */
    if (judge(&original, left, &index) != FOREITUKA_ACCEPTED) return 1;
    for (size_t i = 0; i < COUNT(rewritten); i++) wrong |= check(&rewritten[i]) != expected[i];
    wrong |= check_table("positions", positions, COUNT(positions)) != FOREITUKA_ACCEPTED;
    wrong |= check_table("repeated", repeated, COUNT(repeated)) != FOREITUKA_SCHEDULE;
    wrong |= check_text("printed", printed) != FOREITUKA_SAME;
    wrong |= check_text("unknown", unknown) != FOREITUKA_NAME;
    wrong |= write_text(&original) != FOREITUKA_ACCEPTED;
    return wrong;
}

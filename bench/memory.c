/*
 * What the calls take of the caller's memory, as Markdown tables: the buffers' sizes by the macros of foreituka.h, and the stack that the
 * calls use. Each call runs on a stack of its own that is painted before; what is no longer painted afterwards was used. First it holds the sizes
 * to what the calls ask for: each is accepted, and one word less is refused.
 */
#include "foreituka.h"

#include <stdio.h>
#include <string.h>
#include <ucontext.h>

enum { PAINT = 0xa5, STACK = 1 << 20, QUBITS = 4 };

static unsigned char stack[STACK];
static ucontext_t here, there;
static void (*job)(void);

static void enter(void) { job(); }

static size_t used_by(void (*f)(void)) {
    memset(stack, PAINT, sizeof stack);
    job = f;
    getcontext(&there);
    there.uc_stack.ss_sp = stack;
    there.uc_stack.ss_size = sizeof stack;
    there.uc_link = &here;
    makecontext(&there, enter, 0);
    swapcontext(&here, &there);
    size_t i = 0;
    while (i < sizeof stack && stack[i] == PAINT) i++;
    return sizeof stack - i;
}

static const uint64_t limits[6] = FOREITUKA_DEFAULT_LIMITS;
static const uint8_t store[64];
static uint32_t gates[5 * 1024], nodes[5 * 1024], operations[5 * 1024], pairs[3 * (6 + 10 * 1024)];
static size_t gate_words, node_words, operation_words, pair_words;
static uint32_t qubits, bits;
/* 3 qubits with 5 bits measured into make the largest channel, a little larger than 4 qubits with 1 */
static int64_t left[FOREITUKA_CHANNEL_WORDS(3, 5)], right[FOREITUKA_CHANNEL_WORDS(3, 5)];
static int64_t work[FOREITUKA_CHANNEL_WORK_WORDS(QUBITS, 6)], effects[FOREITUKA_EFFECTS_WORDS(QUBITS, 64)], less[FOREITUKA_PACKED_WORDS(3, 32)];
static int64_t x[5] = {1, 1, 1, 1, 1}, y[5] = {3, -1, 5, 7, 2}, out[5], scalars[10];
static uint64_t place[3], index_of, total, answers[3 * FOREITUKA_ANSWER_WORDS];
static int64_t told[3 * FOREITUKA_ANSWER_SCALARS];
static uint32_t reply;

#define WORDS(b) (sizeof(b) / sizeof((b)[0]))

static void nothing(void) {}
static void channel(void) {
    reply = foreituka_circuit_channel(qubits, bits, store, bits, gates, gate_words, limits, left, WORDS(left), work, WORDS(work), &index_of);
}
static void plain_channel(void) {
    reply = foreituka_plain_channel(qubits, bits, store, bits, gates, gate_words, limits, left, WORDS(left), work, WORDS(work), &index_of);
}
static void pauli_channel(void) {
    reply = foreituka_pauli_channel(qubits, bits, store, bits, nodes, node_words, operations, operation_words, limits, left, WORDS(left), work,
                                    WORDS(work), &index_of);
}
static void pauli_verdict(void) {
    reply = foreituka_pauli_verdict(qubits, bits, store, bits, nodes, node_words, operations, operation_words, limits, WORDS(left), WORDS(work),
                                    &index_of);
}
/* three pairs: of the same circuit, of one that differs, and of other dimensions */
static void compare_list(void) {
    reply = foreituka_compare_list(3, pairs, pair_words, store, 6 * (size_t)bits + 1, limits, UINT64_MAX, left, WORDS(left), right, WORDS(right), work,
                                   WORDS(work), answers, WORDS(answers), told, WORDS(told), &total, &index_of);
}
/* in layers of one gate each */
static void layered(void) {
    static uint32_t ends[1024];
    size_t count = gate_words / 5;
    for (size_t i = 0; i < count; i++) ends[i] = (uint32_t)i + 1;
    reply = foreituka_layered_channel(qubits, bits, store, bits, gates, gate_words, ends, count, limits, left, WORDS(left), work, WORDS(work), &index_of);
}
/* gates that share nothing, the last one first */
static void schedule(void) {
    static uint32_t reversed[5 * 1024], table[1024];
    uint32_t count = (uint32_t)(gate_words / 5);
    for (uint32_t i = 0; i < count; i++) {
        table[i] = count - 1 - i;
        memcpy(reversed + 5 * i, gates + 5 * table[i], 5 * sizeof *gates);
    }
    reply = foreituka_judge_schedule(qubits, 0, gates, gate_words, reversed, gate_words, table, count, &index_of);
}
static void unitary(void) {
    reply = foreituka_circuit_unitary(qubits, gates, gate_words, limits, left, WORDS(left), work, WORDS(work), &index_of);
}
static void compare(void) { reply = foreituka_compare(left, WORDS(left), right, WORDS(right), place, scalars); }
static void blocks(void) { reply = foreituka_classical_blocks(left, WORDS(left), effects, WORDS(effects)); }
static void povm(void) { reply = foreituka_povm_effects(left, WORDS(left), effects, WORDS(effects)); }
static void pack(void) { reply = foreituka_pack_channel(left, WORDS(left), less, WORDS(less), &index_of); }
static void unpack(void) { reply = foreituka_unpack_channel(less, WORDS(less), right, WORDS(right), &index_of); }
static void write_plain(void) { reply = foreituka_write_plain(left, WORDS(left), less, WORDS(less), &index_of); }
static void read_plain(void) { reply = foreituka_read_plain(less, WORDS(less), right, WORDS(right), &index_of); }
static void lookup(void) { reply = (uint32_t)foreituka_lookup(left, WORDS(left), store, bits); }
static void phase(void) {
    size_t d = (size_t)1 << qubits;
    reply = foreituka_equivalent_up_to_global_phase(d, left, 5 * d * d, d, right, 5 * d * d);
}
static void scalar_calls(void) {
    reply = foreituka_scalar_integer(7, out) + foreituka_scalar_zero(out) + foreituka_scalar_i(out) + foreituka_scalar_inv_sqrt_two(out) +
            foreituka_scalar_omega(13, out) + foreituka_scalar_neg(x, out) + foreituka_scalar_conj(x, out) + foreituka_scalar_half(x, out) +
            foreituka_scalar_add(x, y, out) + foreituka_scalar_mul(x, y, out);
}

/* five words behind the others of a list */
static void append(uint32_t *list, size_t *words, uint32_t kind, uint32_t a, uint32_t b, uint32_t c, uint32_t k) {
    uint32_t g[5] = {kind, a, b, c, k};
    memcpy(list + *words, g, sizeof g);
    *words += 5;
}

static void gate(uint32_t kind, uint32_t a, uint32_t b, uint32_t c) { append(gates, &gate_words, kind, a, b, c, 0); }

static int outside(uint32_t kind) {
    return kind == FOREITUKA_GATE_T || kind == FOREITUKA_GATE_TDG || kind == FOREITUKA_GATE_CH;
}

/* every kind that fits n qubits, or of those every one in the plain-gate profile, on every qubit, `splits` measures and resets, a weight of at most 56 */
static void all_kinds(uint32_t n, int splits, int plain) {
    gate_words = 0;
    qubits = n;
    bits = splits ? 1 : 0;
    static const uint32_t one[] = {FOREITUKA_GATE_H, FOREITUKA_GATE_X, FOREITUKA_GATE_Z, FOREITUKA_GATE_S, FOREITUKA_GATE_SDG, FOREITUKA_GATE_T,
                                   FOREITUKA_GATE_TDG, FOREITUKA_GATE_RZ, FOREITUKA_GATE_Y, FOREITUKA_GATE_SX};
    static const uint32_t two[] = {FOREITUKA_GATE_CNOT, FOREITUKA_GATE_CZ, FOREITUKA_GATE_SWAP, FOREITUKA_GATE_CY, FOREITUKA_GATE_CH};
    static const uint32_t three[] = {FOREITUKA_GATE_CCX, FOREITUKA_GATE_CCZ, FOREITUKA_GATE_CSWAP};
    for (uint32_t q = 0; q < n; q++) {
        for (size_t i = 0; i < WORDS(one); i++)
            if (!plain || !outside(one[i])) gate(one[i], q, 0, 0);
        for (size_t i = 0; n > 1 && i < WORDS(two); i++)
            if (!plain || !outside(two[i])) gate(two[i], q, (q + 1) % n, 0);
        for (size_t i = 0; n > 2 && !plain && i < WORDS(three); i++) gate(three[i], q, (q + 1) % n, (q + 2) % n);
    }
    for (int i = 0; n > 0 && i < splits; i++) gate(i % 2 ? FOREITUKA_GATE_RESET : FOREITUKA_GATE_MEASURE, (uint32_t)i % n, 0, 0);
}

/* the circuit beside itself, beside one with no gate, and beside one with a bit more */
static void three_pairs(void) {
    pair_words = 0;
    for (uint32_t i = 0; i < 3; i++) {
        uint32_t again = i == 0 ? (uint32_t)gate_words : 0, head[6] = {qubits, bits, (uint32_t)gate_words, qubits, bits + (i == 2), again};
        memcpy(pairs + pair_words, head, sizeof head);
        memcpy(pairs + pair_words + 6, gates, gate_words * sizeof *gates);
        memcpy(pairs + pair_words + 6 + gate_words, gates, again * sizeof *gates);
        pair_words += 6 + gate_words + again;
    }
}

/* as many listed nodes as may be: every kind, and products of the latest. Rotations by all eighths about nodes of every form, `splits` measures, the
 * first into a bit, and rotations on each outcome */
static void every_operation(uint32_t n, uint32_t splits) {
    qubits = n;
    bits = splits ? 1 : 0;
    node_words = operation_words = 0;
    for (uint32_t q = 0; q < n; q++)
        for (uint32_t p = FOREITUKA_NODE_I; p <= FOREITUKA_NODE_Z; p++) append(nodes, &node_words, p, q, 0, 0, 0);
    uint32_t named = 2 * n + 1 + 4 * n + 1; /* the nodes before the products that no axis names, one of them a product */
    append(nodes, &node_words, FOREITUKA_NODE_TIMES, n, 1, n, 3);
    while (node_words < WORDS(nodes)) append(nodes, &node_words, FOREITUKA_NODE_TIMES, 2 * n + (uint32_t)node_words / 5, 0, n, 1);
    for (uint32_t i = 0; i < 16; i++) append(operations, &operation_words, FOREITUKA_ROTATE, (5 * i + 1) % named, i / 4 % 2 * 2, i % 8, 0);
    for (uint32_t i = 0; i < splits; i++)
        append(operations, &operation_words, i ? FOREITUKA_MEASURE : FOREITUKA_MEASURE_INTO, (3 * i + 1) % named, i % 2 * 2, 0, 0);
    for (uint32_t i = 0; splits && i < 8; i++) append(operations, &operation_words, FOREITUKA_ROTATE_IF, (7 * i + 2) % named, 0, i, i % splits);
}

static size_t most(size_t a, size_t b) { return a > b ? a : b; }

static void kib(size_t words) {
    size_t bytes = 8 * words;
    if (bytes < 10240)
        printf("%zu B", bytes);
    else if (bytes < 10485760)
        printf("%zu KiB", (bytes + 1023) / 1024);
    else
        printf("%zu MiB", (bytes + 1048575) / 1048576);
}

static void size(size_t words) {
    printf(" %zu (", words);
    kib(words);
    printf(") |");
}

static void sizes(void) {
    /* the largest numbers of measures and resets, and of bits measured into, that the limits allow with no other gate */
    printf("| words (8 bytes each) | n = 0 | 1 | 2 | 3 | 4 | 5 |\n|---|---|---|---|---|---|---|\n");
    for (int written = 0; written <= 6; written++) {
        printf("| channel, %d bit%s measured into |", written, written == 1 ? "" : "s");
        for (int n = 0; n <= 5; n++) {
            size_t d2 = FOREITUKA_DIM(n) * FOREITUKA_DIM(n), b = (size_t)1 << written;
            if (n == 0 ? written > 0 : b * d2 * d2 + (3 * b + 8) * d2 > FOREITUKA_MAX_MATRIX_CELLS)
                printf(" – |");
            else
                size(FOREITUKA_CHANNEL_WORDS(n, written));
        }
        printf("\n");
    }
    for (int splits = 0; splits <= 6; splits++) {
        printf("| its work, %d measures and resets |", splits);
        for (int n = 0; n <= 5; n++) {
            if (n == 5 || (n == 0 && splits))
                printf(" – |");
            else
                size(FOREITUKA_CHANNEL_WORK_WORDS(n, splits));
        }
        printf("\n");
    }
    for (int measures = 0; measures <= 6; measures++) {
        printf("| work of a Pauli program, %d measures |", measures);
        for (int n = 0; n <= 5; n++) {
            if (n == 5 || (n == 4 && measures == 6))
                printf(" – |");
            else
                size(FOREITUKA_PAULI_WORK_WORDS(n, measures, n || measures ? 2 * n + 1 : 0));
        }
        printf("\n");
    }
    printf("| the same, each further node |");
    for (int n = 0; n <= 4; n++) size(FOREITUKA_PAULI_WORK_WORDS(n, 0, 1) - FOREITUKA_PAULI_WORK_WORDS(n, 0, 0));
    printf(" – |\n| unitary |");
    for (int n = 0; n <= 5; n++) size(FOREITUKA_UNITARY_WORDS(n));
    printf("\n| its work |");
    for (int n = 0; n <= 5; n++) size(FOREITUKA_UNITARY_WORK_WORDS(n));
    printf("\n| effects, one block |");
    for (int n = 0; n <= 4; n++) size(FOREITUKA_EFFECTS_WORDS(n, 1));
    printf(" – |\n| effects, each further block |");
    for (int n = 0; n <= 4; n++) size(FOREITUKA_EFFECTS_WORDS(n, 2) - FOREITUKA_EFFECTS_WORDS(n, 1));
    printf(" – |\n| packed channel, one block |");
    for (int n = 0; n <= 4; n++) size(FOREITUKA_PACKED_WORDS(n, 1));
    printf(" – |\n| channel without √2 parts, one block |");
    for (int n = 0; n <= 4; n++) size(FOREITUKA_PLAIN_WORDS(n, 1));
    printf(" – |\n");
}

/* whether the macros' sizes are accepted and one word less is refused as short, for every number of qubits, measures and bits within the limits */
static int exact(void) {
    for (uint32_t n = 0; n <= FOREITUKA_MAX_QUBITS; n++) {
        size_t d2 = FOREITUKA_DIM(n) * FOREITUKA_DIM(n), words = FOREITUKA_UNITARY_WORDS(n), needed = FOREITUKA_UNITARY_WORK_WORDS(n);
        gate_words = 0;
        for (int fewer = 0; fewer < 4; fewer++) {
            reply = foreituka_circuit_unitary(n, gates, 0, limits, left, words - (fewer & 1), work, needed - (fewer >> 1), &index_of);
            if (reply != (fewer ? FOREITUKA_SHORT : FOREITUKA_ACCEPTED)) return 1;
        }
        for (uint32_t splits = 0; splits <= (n ? 6 : 0); splits++)
            for (uint32_t written = splits ? 1 : 0; written <= splits; written++) {
                size_t b = (size_t)1 << splits, v = (size_t)1 << written;
                if (v * d2 * d2 + (3 * b + 8) * d2 > FOREITUKA_MAX_MATRIX_CELLS) continue;
                gate_words = 0;
                for (uint32_t i = 0; i < splits; i++) gate(FOREITUKA_GATE_MEASURE, i % n, i < written ? i : 0, 0);
                words = FOREITUKA_CHANNEL_WORDS(n, written);
                needed = FOREITUKA_CHANNEL_WORK_WORDS(n, splits);
                for (int fewer = 0; fewer < 4; fewer++) {
                    reply = foreituka_circuit_channel(n, written, store, written, gates, gate_words, limits, left, words - (fewer & 1), work,
                                                      needed - (fewer >> 1), &index_of);
                    if (reply != (fewer ? FOREITUKA_SHORT : FOREITUKA_ACCEPTED)) return 1;
                    if (fewer) continue;
                    size_t effect_words = FOREITUKA_EFFECTS_WORDS(n, left[2]);
                    if (foreituka_classical_blocks(left, words, effects, effect_words) != FOREITUKA_ACCEPTED ||
                        foreituka_classical_blocks(left, words, effects, effect_words - 1) != FOREITUKA_SHORT ||
                        foreituka_povm_effects(left, words, effects, effect_words) != FOREITUKA_ACCEPTED ||
                        foreituka_povm_effects(left, words, effects, effect_words - 1) != FOREITUKA_SHORT)
                        return 1;
                    size_t packed_words = FOREITUKA_PACKED_WORDS(n, left[2]), plain_words = FOREITUKA_PLAIN_WORDS(n, left[2]), all = FOREITUKA_HEADER_WORDS + (size_t)left[2] * FOREITUKA_RECORD_WORDS(n);
                    if (foreituka_pack_channel(left, words, less, packed_words - 1, &index_of) != FOREITUKA_SHORT ||
                        foreituka_pack_channel(left, words, less, packed_words, &index_of) != FOREITUKA_ACCEPTED ||
                        foreituka_unpack_channel(less, packed_words, right, all - 1, &index_of) != FOREITUKA_SHORT ||
                        foreituka_unpack_channel(less, packed_words, right, all, &index_of) != FOREITUKA_ACCEPTED || memcmp(left, right, all * sizeof *left) ||
                        foreituka_write_plain(left, words, less, plain_words - 1, &index_of) != FOREITUKA_SHORT ||
                        foreituka_write_plain(left, words, less, plain_words, &index_of) != FOREITUKA_ACCEPTED ||
                        foreituka_read_plain(less, plain_words, right, all - 1, &index_of) != FOREITUKA_SHORT ||
                        foreituka_read_plain(less, plain_words, right, all, &index_of) != FOREITUKA_ACCEPTED || memcmp(left, right, all * sizeof *left))
                        return 1;
                }
            }
    }
    return 0;
}

/* the same of Pauli programs, with no listed node and with three */
static int exact_programs(void) {
    for (uint32_t n = 0; n < FOREITUKA_MAX_QUBITS; n++)
        for (uint32_t measures = 0; measures <= 6; measures++)
            for (uint32_t written = measures ? 1 : 0; written <= measures; written++)
                for (uint32_t listed = 0; listed <= 3; listed += 3) {
                    size_t d = FOREITUKA_DIM(n), b = (size_t)1 << measures, v = (size_t)1 << written, known = n || measures ? 2 * n + 1 : 0;
                    if (listed) known = 2 * n + 1 + listed;
                    if (v * d * d * d * d + (3 * b + known + 8) * d * d > FOREITUKA_MAX_MATRIX_CELLS) continue;
                    if ((2 * (measures + !!listed + 2 * n) * b + known) * d * d * d + b * d * d * d * d > FOREITUKA_MAX_MULTIPLY_TERMS) continue;
                    node_words = operation_words = 0;
                    for (uint32_t i = 0; i < listed; i++) append(nodes, &node_words, FOREITUKA_NODE_TIMES, 0, 0, 0, 0);
                    if (listed) append(operations, &operation_words, FOREITUKA_ROTATE, 2 * n + listed, 0, 4, 0);
                    for (uint32_t i = 0; i < measures; i++)
                        append(operations, &operation_words, FOREITUKA_MEASURE_INTO, i % (2 * n + 1), 0, i < written ? i : 0, 0);
                    size_t words = FOREITUKA_CHANNEL_WORDS(n, written), needed = FOREITUKA_PAULI_WORK_WORDS(n, measures, known);
                    for (int fewer = 0; fewer < 4; fewer++) {
                        uint64_t lent = words - (fewer & 1), spare = needed - (fewer >> 1);
                        uint32_t due = fewer ? FOREITUKA_SHORT : FOREITUKA_ACCEPTED;
                        reply = foreituka_pauli_verdict(n, written, store, written, nodes, node_words, operations, operation_words, limits, lent, spare, &index_of);
                        if (reply != due) return 1;
                        reply = foreituka_pauli_channel(n, written, store, written, nodes, node_words, operations, operation_words, limits, left, lent, work, spare,
                                                        &index_of);
                        if (reply != due) return 1;
                    }
                }
    return 0;
}

/* in the order of the table */
enum { CHANNEL, PLAIN, LAYERED, PAULI, PAULI_VERDICT, SCHEDULE, UNITARY, COMPARE, LIST, BLOCKS, POVM, PACK, UNPACK, WRITE_PLAIN, READ_PLAIN, LOOKUP, PHASE, SCALARS, CALLS };

int main(void) {
    if (exact() || exact_programs()) return fprintf(stderr, "memory: a size of the header is not what the calls ask for; reply %u\n", reply), 1;
    size_t own = used_by(nothing), of[CALLS] = {0};
    for (uint32_t n = 0; n <= QUBITS; n++)
        for (int splits = 0; splits <= (n < 4 ? 4 : 2); splits++) {
            all_kinds(n, splits, 0);
            three_pairs();
            of[LIST] = most(of[LIST], used_by(compare_list));
            const uint64_t *second = answers + FOREITUKA_ANSWER_WORDS, *third = second + FOREITUKA_ANSWER_WORDS;
            if (reply != FOREITUKA_ACCEPTED || answers[0] != FOREITUKA_SAME || second[0] != (n ? FOREITUKA_ENTRY : FOREITUKA_SAME) || third[0] != FOREITUKA_DIMENSIONS)
                return fprintf(stderr, "memory: another answer to a list at %u qubits\n", n), 1;
            every_operation(n, (uint32_t)splits);
            of[PAULI_VERDICT] = most(of[PAULI_VERDICT], used_by(pauli_verdict));
            of[PAULI] = most(of[PAULI], used_by(pauli_channel));
            if (reply != FOREITUKA_ACCEPTED) return fprintf(stderr, "memory: a program refused %u at %u qubits\n", reply, n), 1;
            of[CHANNEL] = most(of[CHANNEL], used_by(channel));
            if (reply != FOREITUKA_ACCEPTED) return fprintf(stderr, "memory: refused %u at %u qubits\n", reply, n), 1;
            of[LAYERED] = most(of[LAYERED], used_by(layered));
            if (reply != FOREITUKA_ACCEPTED) return fprintf(stderr, "memory: layers refused %u at %u qubits\n", reply, n), 1;
            memcpy(right, left, sizeof left);
            of[COMPARE] = most(of[COMPARE], used_by(compare));
            if (reply != FOREITUKA_SAME) return fprintf(stderr, "memory: not the same: %u\n", reply), 1;
            right[FOREITUKA_HEADER_WORDS + FOREITUKA_RECORD_WORDS(n) - 1] ^= 1; /* the last numerator of the first block: different */
            of[COMPARE] = most(of[COMPARE], used_by(compare));
            right[FOREITUKA_HEADER_WORDS + FOREITUKA_EXPONENT_PLACE] += 1; /* and its exponent, so that entries have to be brought to lowest form */
            of[COMPARE] = most(of[COMPARE], used_by(compare));
            of[BLOCKS] = most(of[BLOCKS], used_by(blocks));
            of[POVM] = most(of[POVM], used_by(povm));
            of[LOOKUP] = most(of[LOOKUP], used_by(lookup));
            of[PACK] = most(of[PACK], used_by(pack));
            of[UNPACK] = most(of[UNPACK], used_by(unpack));
            if (reply != FOREITUKA_ACCEPTED) return fprintf(stderr, "memory: packed and refused %u at %u qubits\n", reply, n), 1;
            all_kinds(n, splits, 1);
            of[PLAIN] = most(of[PLAIN], used_by(plain_channel));
            if (reply != FOREITUKA_ACCEPTED) return fprintf(stderr, "memory: the profile refused %u at %u qubits\n", reply, n), 1;
            gate_words = 0; /* channels without √2 parts */
            for (int i = 0; n > 0 && i < splits; i++) gate(FOREITUKA_GATE_MEASURE, (uint32_t)i % n, 0, 0);
            channel();
            of[WRITE_PLAIN] = most(of[WRITE_PLAIN], used_by(write_plain));
            of[READ_PLAIN] = most(of[READ_PLAIN], used_by(read_plain));
            if (reply != FOREITUKA_ACCEPTED) return fprintf(stderr, "memory: written and refused %u at %u qubits\n", reply, n), 1;
        }
    for (uint32_t n = 0; n <= FOREITUKA_MAX_QUBITS; n++) {
        all_kinds(n, 0, 0);
        of[UNITARY] = most(of[UNITARY], used_by(unitary));
        if (reply != FOREITUKA_ACCEPTED) return fprintf(stderr, "memory: unitary refused %u at %u qubits\n", reply, n), 1;
        memcpy(right, left, sizeof left);
        of[PHASE] = most(of[PHASE], used_by(phase));
        if (reply != FOREITUKA_EQUIVALENT) return fprintf(stderr, "memory: not equivalent: %u\n", reply), 1;
    }
    of[SCALARS] = used_by(scalar_calls);
    qubits = 3 * 1024;
    gate_words = 0;
    for (uint32_t i = 0; i < 1024; i++) gate(FOREITUKA_GATE_CCX, 3 * i, 3 * i + 1, 3 * i + 2);
    of[SCHEDULE] = used_by(schedule);
    if (reply != FOREITUKA_ACCEPTED) return fprintf(stderr, "memory: schedule refused %u\n", reply), 1;
    static const char *names[CALLS] = {"circuit_channel", "plain_channel", "layered_channel", "pauli_channel", "pauli_verdict", "judge_schedule", "circuit_unitary", "compare",
                                       "compare_list", "classical_blocks", "povm_effects", "pack_channel", "unpack_channel", "write_plain", "read_plain", "lookup",
                                       "equivalent_up_to_global_phase", "scalar calls"};
    sizes();
    printf("\n| call | stack, bytes |\n|---|---|\n");
    for (int i = 0; i < CALLS; i++) printf("| %s | %zu |\n", names[i], of[i] - own);
    return 0;
}

/*
 * Foreituka: a proved judge of quantum circuits. Link with libforeituka.a, which `rt lib` in crates/foreituka writes, for x86-64 Linux.
 *
 * All memory is the caller's: no call allocates, keeps a pointer, prints or fails other than by a number. docs/FORMATS.md has every
 * word of every layout, docs/CONTRACTS.md what each call promises.
 *
 * What the caller owes, since C cannot say it in a type: each pointer is aligned and reaches as many elements as the length behind it says,
 * as the array in its declaration has, or one (index, words, position, bytes); a pointer with length 0 may be NULL, and no other; what a call
 * writes (pointers without const) overlaps nothing else that it is given; nobody else writes to any of it during the call. Nothing is owed
 * beyond that: contents that make no sense are refused.
 *
 * Out parameters are index, total, place, scalars, counts, words, position, bytes, numbers and, of the scalar calls, out. They must be writable, and every call
 * writes all of them, whatever its reply: index is 0 where the reply names no place in a list or a chain, and the others are all zero where there is nothing to say.
 * result and work, read_qasm's gates, write_qasm's out and compare_list's five buffers are other: a refusal changes nothing of theirs.
 *
 * Threads: nothing is shared between calls, and the archive has no data that a call writes. Calls on different buffers may run at once; what
 * is only read (const) may be the same in all of them.
 *
 * Words are int64_t. A scalar is five of them, n0 n1 n2 n3 e: the number (n0 + n1·√2 + n2·i + n3·i·√2) / 2^e in lowest form (e is 0 or some
 * numerator is odd), numerators from −2^61 to 2^61, e from 0 to 60. It is narrow if they lie within 2^29 either way and e is at most 29.
 * In the sizes below n is the number of qubits and d = 2^n.
 *
 * A channel, and what the effect calls leave, is a header of FOREITUKA_HEADER_WORDS words (d, bits, blocks, index of the first record) and records,
 * chained by their first word: next, store bits 0 to 31, store bits 32 to 63, the exponent e that the block shares, and four numerators for each of its
 * entries, row by row. e is 0 or some numerator of the block is odd, numerators and e are in the ranges of a scalar; the entry of n0 n1 n2 n3 is the
 * number above, which need not be in lowest form. A matrix has five words an entry, a scalar each.
 */
#ifndef FOREITUKA_HEADER
#define FOREITUKA_HEADER

#include <stddef.h>
#include <stdint.h>

#define FOREITUKA_VERSION_MAJOR 0
#define FOREITUKA_VERSION_MINOR 3
#define FOREITUKA_VERSION_PATCH 0
#define FOREITUKA_VERSION "0.3.0"

#ifdef __cplusplus
extern "C" {
#endif

/* ---- Replies ----
 * FOREITUKA_ACCEPTED is the only reply that is 0, and compare, judge_texts and the phase test never give it, so a test for 0 cannot be read as
 * "same". */
enum {
    FOREITUKA_ACCEPTED = 0,         /* the result is written */
    FOREITUKA_LIMIT = 1,            /* a limit is exceeded */
    FOREITUKA_UNSUPPORTED = 2,      /* an unsupported gate; its index is given */
    FOREITUKA_OPERAND = 3,          /* a qubit out of range or repeated, a bit out of range; the gate's index is given. Of a Pauli program: a bit out of
                                       range; the operation's index is given */
    FOREITUKA_STORE = 4,            /* the initial store has another length than the bit count, or a byte above 1 */
    FOREITUKA_GATES = 5,            /* a malformed gate, or node or operation of a Pauli program; its index in its own list is given. Or a length that is no
                                       multiple of 5; index 0. From compare_list: a pair that is not there; its place is given */
    FOREITUKA_CEILING = 6,          /* a limit is above its ceiling */
    FOREITUKA_WEIGHT = 7,           /* h, ch and sx number more than 56. Of a Pauli program: its operations weigh more than 56; below stands what each weighs */
    FOREITUKA_SHORT = 8,            /* too few words for the result or the work; too few words for gates or bytes for a text */
    FOREITUKA_LARGE = 9,            /* a number too large: a result out of range, an operand that is not narrow, an effect out of range at its exponent */
    FOREITUKA_MALFORMED = 10,       /* a scalar, matrix or channel that is none */
    FOREITUKA_LAYERS = 11,          /* the ends of layers do not rise strictly from at least 1, or do not close at the gate count */
    FOREITUKA_CLASH = 12,           /* two gates of one layer share a qubit or a bit; the lowest index of such a later gate is given */
    FOREITUKA_TEXT = 13,            /* a text of another form than read_qasm's, or a number above 4,294,967,295; its position is given */
    FOREITUKA_NAME = 14,            /* another word where a gate's name or a register is due; its position is given. Or, from write_qasm, a gate
                                       whose kind has no name; its index is given */
    FOREITUKA_SCHEDULE = 15,        /* a list and its table are no schedule of another list; the first position at fault is given, 0 where lengths differ */
    FOREITUKA_ZERO_BLOCK = 16,      /* a well-formed channel with a block that has no entry but zeros */
    FOREITUKA_NODE = 17,            /* a listed Pauli node with a bad qubit, or that names a node not before it; its index in the list is given */
    FOREITUKA_AXIS = 18,            /* an axis that is no node, or does not equal its own adjoint; the operation's index is given */
    FOREITUKA_OUTCOME = 19,         /* an outcome that is read before it is made; the operation's index is given */
    FOREITUKA_NO_PLACE = 20,        /* a kept circuit has no place free, or 1,024 gates */
    FOREITUKA_NO_GATE = 21,         /* a kept circuit has no gate at the position */
    FOREITUKA_HERMITIAN = 22,       /* a channel to be packed with a block that is not Hermitian; the place along the chain, from 0, of the first is given */
    FOREITUKA_PLAIN = 23,           /* a gate outside the plain-gate profile; its index is given. Or, from write_plain, a block with a √2 part; the place
                                       along the chain, from 0, of the first is given */
    FOREITUKA_PAIRS = 24,           /* more than 32 pairs */
    FOREITUKA_COUNTS = 25,          /* the words of a kept circuit are too few, or their counts cannot be those of its gates */
    FOREITUKA_SAME = 100,           /* compare, judge_texts: no entry differs */
    FOREITUKA_DIMENSIONS = 101,     /* compare, judge_texts: dimensions or bit counts differ */
    FOREITUKA_ENTRY = 102,          /* compare, judge_texts: an entry differs; place or numbers, and scalars, say which */
    FOREITUKA_EQUIVALENT = 103,     /* phase test: equal up to a global phase */
    FOREITUKA_DIFFERENT = 104,      /* phase test: not */
    FOREITUKA_LEFT_REFUSED = 105,   /* judge_texts: the left text or its circuit is refused; numbers says why */
    FOREITUKA_RIGHT_REFUSED = 106,  /* judge_texts: the right one is */
    FOREITUKA_PASSED_OVER = 107     /* compare_list, in an answer: the pair is passed over, the allowance does not reach it */
};

/* ---- Gates: five uint32_t words each: kind, a, b, c, k; words that a kind does not use are 0 ---- */
enum {
    FOREITUKA_GATE_H = 0,        /* qubit a; weighs 1 */
    FOREITUKA_GATE_X = 1,        /* qubit a */
    FOREITUKA_GATE_Z = 2,        /* qubit a */
    FOREITUKA_GATE_S = 3,        /* qubit a */
    FOREITUKA_GATE_SDG = 4,      /* qubit a */
    FOREITUKA_GATE_T = 5,        /* qubit a */
    FOREITUKA_GATE_TDG = 6,      /* qubit a */
    FOREITUKA_GATE_RZ = 7,       /* qubit a, k from 0 to 7: diagonal (1, omega(k)); k = 8 stands for every other angle, unsupported */
    FOREITUKA_GATE_CNOT = 8,     /* control a, target b */
    FOREITUKA_GATE_CZ = 9,       /* control a, target b */
    FOREITUKA_GATE_CCX = 10,     /* controls a and b, target c */
    FOREITUKA_GATE_CCZ = 11,     /* controls a and b, target c */
    FOREITUKA_GATE_MEASURE = 12, /* qubit a into classical bit b */
    FOREITUKA_GATE_RESET = 13,   /* qubit a */
    FOREITUKA_GATE_P = 14,       /* unsupported, as are rx, ry, cp, crx, cry, crz */
    FOREITUKA_GATE_Y = 15,       /* qubit a */
    FOREITUKA_GATE_SX = 16,      /* qubit a; weighs 1 */
    FOREITUKA_GATE_RX = 17,
    FOREITUKA_GATE_RY = 18,
    FOREITUKA_GATE_SWAP = 19,    /* qubits a and b */
    FOREITUKA_GATE_CY = 20,      /* control a, target b */
    FOREITUKA_GATE_CP = 21,
    FOREITUKA_GATE_CRX = 22,
    FOREITUKA_GATE_CRY = 23,
    FOREITUKA_GATE_CRZ = 24,
    FOREITUKA_GATE_CH = 25,      /* control a, target b; weighs 1 */
    FOREITUKA_GATE_CSWAP = 26    /* control a, qubits b and c */
};

/* ---- Pauli programs: listed nodes and operations, five uint32_t words each: kind, a, b, c, k; words that a kind does not use are 0. Node 0 is the
 * identity, nodes 1 + 2q and 2 + 2q are X and Z of qubit q, the listed ones follow. Turns 0 to 3 stand for the factors 1, i, -1, -i ---- */
enum {
    FOREITUKA_NODE_I = 0,     /* qubit a */
    FOREITUKA_NODE_X = 1,     /* qubit a */
    FOREITUKA_NODE_Y = 2,     /* qubit a */
    FOREITUKA_NODE_Z = 3,     /* qubit a */
    FOREITUKA_NODE_TIMES = 4  /* node a with b turns, times node c with k turns, both earlier */
};
enum {
    FOREITUKA_ROTATE = 0,       /* about node a with b turns, by c eighths (0 to 7); odd ones weigh 2, eighths 2 and 6 weigh 1 */
    FOREITUKA_ROTATE_IF = 1,    /* the same, if outcome k was one */
    FOREITUKA_MEASURE = 2,      /* node a with b turns; weighs 2 */
    FOREITUKA_MEASURE_INTO = 3  /* node a with b turns, into classical bit c; weighs 2 */
};

/* ---- Limits: six uint64_t. These are the defaults and the ceilings alike ---- */
enum {
    FOREITUKA_MAX_QUBITS = 5,
    FOREITUKA_MAX_MATRIX_CELLS = 262144,
    FOREITUKA_MAX_MULTIPLY_TERMS = 10000000,
    FOREITUKA_MAX_OPERATIONS = 1024,
    FOREITUKA_MAX_BRANCHES = 64,
    FOREITUKA_MAX_CLASSICAL_BITS = 64,
    FOREITUKA_MAX_WEIGHT = 56
};
#define FOREITUKA_DEFAULT_LIMITS                                                                                              \
    { FOREITUKA_MAX_QUBITS, FOREITUKA_MAX_MATRIX_CELLS, FOREITUKA_MAX_MULTIPLY_TERMS, FOREITUKA_MAX_OPERATIONS,               \
      FOREITUKA_MAX_BRANCHES, FOREITUKA_MAX_CLASSICAL_BITS }

/* ---- Buffer sizes in words, for static buffers. splits: measures and resets. written: distinct bits measured into (never above splits).
 * blocks: a channel's block count, at most 2^written ---- */
#define FOREITUKA_DIM(n) ((size_t)1 << (n))
#define FOREITUKA_MATRIX_WORDS(n) (5 * FOREITUKA_DIM(n) * FOREITUKA_DIM(n))
/* a channel's header, a record's head, the place of the exponent in it, and the numerators of an entry; a block has d^4 entries, an effect d^2 */
#define FOREITUKA_HEADER_WORDS 4
#define FOREITUKA_RECORD_HEAD 4
#define FOREITUKA_EXPONENT_PLACE 3
#define FOREITUKA_ENTRY_WORDS 4
#define FOREITUKA_BLOCK_ENTRIES(n) ((size_t)1 << 4 * (n))
#define FOREITUKA_EFFECT_ENTRIES(n) ((size_t)1 << 2 * (n))
#define FOREITUKA_RECORD_WORDS(n) (FOREITUKA_RECORD_HEAD + FOREITUKA_ENTRY_WORDS * FOREITUKA_BLOCK_ENTRIES(n))
#define FOREITUKA_EFFECT_RECORD_WORDS(n) (FOREITUKA_RECORD_HEAD + FOREITUKA_ENTRY_WORDS * FOREITUKA_EFFECT_ENTRIES(n))
#define FOREITUKA_CHANNEL_WORDS(n, written) (FOREITUKA_HEADER_WORDS + ((size_t)1 << (written)) * FOREITUKA_RECORD_WORDS(n))
#define FOREITUKA_CHANNEL_WORK_WORDS(n, splits) ((((size_t)2 << (splits)) + 2) * (FOREITUKA_MATRIX_WORDS(n) + 2))
#define FOREITUKA_UNITARY_WORDS(n) FOREITUKA_MATRIX_WORDS(n)
#define FOREITUKA_UNITARY_WORK_WORDS(n) (4 * (FOREITUKA_MATRIX_WORDS(n) + 2))
#define FOREITUKA_EFFECTS_WORDS(n, blocks) (FOREITUKA_HEADER_WORDS + (size_t)(blocks) * FOREITUKA_EFFECT_RECORD_WORDS(n))
/* Words of a packed channel of n qubits and as many blocks, and of one with n0 and n2 alone for each entry. */
#define FOREITUKA_PACKED_WORDS(n, blocks) (4 + (size_t)(blocks) * (4 + (((size_t)2 << 2 * (n)) * (((size_t)1 << 2 * (n)) + 1))))
#define FOREITUKA_PLAIN_WORDS(n, blocks) (4 + (size_t)(blocks) * (4 + ((size_t)2 << 4 * (n))))

/* the work of a Pauli program; nodes: one more than the highest node that an axis names, at least 2n + 1 (0 with no qubits and no axis) */
#define FOREITUKA_PAULI_WORK_WORDS(n, measures, nodes) ((((size_t)2 << (measures)) + (nodes) + 2) * (FOREITUKA_MATRIX_WORDS(n) + 3))
/* compare_list: the most pairs, the words of a circuit's head, and the words of an answer and of its scalars */
#define FOREITUKA_MAX_PAIRS 32
#define FOREITUKA_CIRCUIT_HEAD 3
#define FOREITUKA_ANSWER_WORDS 7
#define FOREITUKA_ANSWER_SCALARS 10

/* bytes: enough for the text of so many gates */
#define FOREITUKA_TEXT_BYTES(gates) (76 + 49 * (size_t)(gates))
/* the room that an answer in words needs; the words and bytes for list */
#define FOREITUKA_ANSWER_BYTES 1024
#define FOREITUKA_LIST_WORDS 5200
#define FOREITUKA_LIST_WORK_WORDS 2000
#define FOREITUKA_LIST_BYTES 202727

/* The channel of a circuit of `qubits` qubits and `bits` classical bits that start as `store` (a byte for each, 0 or 1), or the refusal of
 * the first question that fails (docs/FORMATS.md has the questions). result: FOREITUKA_CHANNEL_WORDS words or more; words behind the last
 * block's record are kept. work: FOREITUKA_CHANNEL_WORK_WORDS or more; accepted, so many are zero, the rest is kept. index: the gate's where
 * the reply names one, else 0. Replies: 0 to 8. */
uint32_t foreituka_circuit_channel(uint32_t qubits, uint32_t bits, const uint8_t *store, size_t store_bytes, const uint32_t *gates,
                                   size_t gate_words, const uint64_t limits[6], int64_t *result, size_t result_words, int64_t *work,
                                   size_t work_words, uint64_t *index);

/* The channel of a layered circuit: a gate list with the ends of its layers, each the count of gates so far; an empty gate list has no ends. It
 * is the channel of the gate list, left in both buffers as circuit_channel leaves it, and any order inside a layer gives the same one. Once
 * every gate has passed, the layers are judged (11, then 12), and then the store and the rest as above. Replies: 0 to 8, 11, 12. */
uint32_t foreituka_layered_channel(uint32_t qubits, uint32_t bits, const uint8_t *store, size_t store_bytes, const uint32_t *gates,
                                   size_t gate_words, const uint32_t *ends, size_t end_count, const uint64_t limits[6], int64_t *result,
                                   size_t result_words, int64_t *work, size_t work_words, uint64_t *index);

/* The reply and index of the call above, from the lengths of its buffers alone: nothing is run, and no buffer is lent. */
uint32_t foreituka_layered_verdict(uint32_t qubits, uint32_t bits, const uint8_t *store, size_t store_bytes, const uint32_t *gates,
                                   size_t gate_words, const uint32_t *ends, size_t end_count, const uint64_t limits[6], size_t result_words,
                                   size_t work_words, uint64_t *index);

/* The channel of a circuit of the plain-gate profile: h, x, y, z, s, sdg, sx, cnot, cz, cy, swap, measure, reset, and rz with k 0, 2, 4 or 6. It is
 * left in both buffers as circuit_channel leaves it, and no entry of it has a √2 part: n1 and n3 are 0. A gate outside the profile is refused (23)
 * right after its own questions (5, 3, 2); all other questions are those of circuit_channel. Replies: 0 to 8, 23. */
uint32_t foreituka_plain_channel(uint32_t qubits, uint32_t bits, const uint8_t *store, size_t store_bytes, const uint32_t *gates,
                                 size_t gate_words, const uint64_t limits[6], int64_t *result, size_t result_words, int64_t *work,
                                 size_t work_words, uint64_t *index);

/* The reply and index of the call above, from the lengths of its buffers alone: nothing is run, and no buffer is lent. */
uint32_t foreituka_plain_verdict(uint32_t qubits, uint32_t bits, const uint8_t *store, size_t store_bytes, const uint32_t *gates,
                                 size_t gate_words, const uint64_t limits[6], size_t result_words, size_t work_words, uint64_t *index);

/* Whether a reordered gate list is a schedule of another: table has for each new gate its old position. Accepted exactly when both lists are well
 * formed and placed on the qubits and bits (5, 3, the old list first; unsupported gates pass), the table is a permutation, the gates match, and
 * every two gates that share a qubit or a bit keep their order; then the new list has the channel of the old one wherever that is accepted. There
 * is no limit on gates. index: the gate's in its list, or the first new position at fault. Replies: 0, 3, 5, 15. */
uint32_t foreituka_judge_schedule(uint32_t qubits, uint32_t bits, const uint32_t *old_gates, size_t old_words, const uint32_t *new_gates,
                                  size_t new_words, const uint32_t *table, size_t entries, uint64_t *index);

/* A circuit kept with its counts, for an editor that asks for the verdict at every keystroke. words: FOREITUKA_KEPT_WORDS(places) or more, which
 * hold qubits, bits, gates, weight, measures and resets, bits measured into, measures into each of 64 bits, and then the gates, five words each
 * (docs/FORMATS.md). Only the calls below write them: words made by these calls alone are never refused with 25. No call's time but that of start
 * and of kept_gates depends on the number of gates. A refusal changes no word.
 *
 * Start with no gate. Replies: 0, 1 (over 5 qubits or 64 bits), 8. */
#define FOREITUKA_KEPT_WORDS(places) (70 + 5 * (size_t)(places))
uint32_t foreituka_kept_start(uint32_t qubits, uint32_t bits, int64_t *words, size_t count);

/* Append a gate; remove the last one, which leaves zeros; put a gate in the place of that at a position, from 0. index: the position of a gate that
 * is refused. Replies: 0, 2, 3, 5, 25, and 20 for append, 21 for the others; remove has no 2, 3 and 5. */
uint32_t foreituka_kept_append(int64_t *words, size_t count, const uint32_t gate[5], uint64_t *index);
uint32_t foreituka_kept_remove(int64_t *words, size_t count);
uint32_t foreituka_kept_replace(int64_t *words, size_t count, size_t position, const uint32_t gate[5], uint64_t *index);

/* What circuit_channel would reply to the circuit, from its counts and the lengths of the buffers. Replies: 0, 1, 4, 6, 7, 8, 25. */
uint32_t foreituka_kept_verdict(const int64_t *words, size_t count, const uint8_t *store, size_t store_bytes, const uint64_t limits[6],
                                size_t result_words, size_t work_words);

/* The gates, words[2] of them, five words each, for circuit_channel. Replies: 0, 8, 25. */
uint32_t foreituka_kept_gates(const int64_t *words, size_t count, uint32_t *gates, size_t gate_words);

/* The unitary matrix of a circuit without measures and resets: d² scalars, row by row, no header. result: FOREITUKA_UNITARY_WORDS words or
 * more. work: FOREITUKA_UNITARY_WORK_WORDS or more, treated as above. Replies: 0, 1, 2, 3, 5, 6, 7, 8; limits are asked before gates here. */
uint32_t foreituka_circuit_unitary(uint32_t qubits, const uint32_t *gates, size_t gate_words, const uint64_t limits[6], int64_t *result,
                                   size_t result_words, int64_t *work, size_t work_words, uint64_t *index);

/* The channel of a Pauli program (docs/FORMATS.md): nodes and operations of five words each, run from the identity and delivered as circuit_channel
 * delivers a circuit's, so that compare, lookup and the calls on effects take it. result: FOREITUKA_CHANNEL_WORDS words or more. work:
 * FOREITUKA_PAULI_WORK_WORDS or more, which end as zero; words past both keep their contents. The listed nodes are judged before the operations, each
 * with its index in its own list. Replies: 0, 1, 3 to 8, 17 to 19. */
uint32_t foreituka_pauli_channel(uint32_t qubits, uint32_t bits, const uint8_t *store, size_t store_bytes, const uint32_t *nodes,
                                 size_t node_words, const uint32_t *operations, size_t operation_words, const uint64_t limits[6],
                                 int64_t *result, size_t result_words, int64_t *work, size_t work_words, uint64_t *index);

/* The reply and index of the call above, from the lengths of its buffers alone: nothing is run, and no buffer is lent. */
uint32_t foreituka_pauli_verdict(uint32_t qubits, uint32_t bits, const uint8_t *store, size_t store_bytes, const uint32_t *nodes,
                                 size_t node_words, const uint32_t *operations, size_t operation_words, const uint64_t limits[6],
                                 size_t result_words, size_t work_words, uint64_t *index);

/* Whether two channels, as circuit_channel leaves them, are the same map; a missing block is zero. FOREITUKA_ENTRY comes with the first
 * unequal entry, by rising stores, then rows, then columns: place is its store (bit j weighs 2^j), row and column, scalars the left one's five
 * words and the right one's, in lowest form. They are zero otherwise. left and right may be one buffer. Replies: 10, 16, 100, 101, 102; asked are 10 and 16 of
 * left, then 10 and 16 of right, then the dimensions. FOREITUKA_SAME says that both have the same stores too. */
uint32_t foreituka_compare(const int64_t *left, size_t left_words, const int64_t *right, size_t right_words, uint64_t place[3],
                           int64_t scalars[10]);

/* Pairs of circuits compared in list order inside one allowance of multiply terms. words has for each of `count` pairs six words, qubits, classical
 * bits and gate words of the left circuit and then of the right one, then the left circuit's gates and the right one's; stores has their initial
 * stores end to end, a byte for each bit. A pair costs the sum of its circuits' terms, 2·G·B·d^3 + B·d^4 for G gates and B = 2^splits. A pair whose
 * circuit is refused, for short words too, keeps that refusal, the left circuit's first, and costs nothing; any other is passed over exactly when
 * its cost added to what is spent exceeds the allowance; else both are run and compared. left, right and work have room for a channel each and for
 * the work of either. answers gets FOREITUKA_ANSWER_WORDS words a pair: the reply (100, 101, 102, 105, 106 or 107), the cost (0 where a circuit is
 * refused), for 102 store, row and column, for 105 and 106 the refusal's number and the gate's index; each 0 otherwise. scalars gets
 * FOREITUKA_ANSWER_SCALARS words a pair: for 102 the left one's five words and the right one's, else zeros. total is the sum of the costs of what is
 * compared. Accepted, all words of left, right and work are zero, and those of answers and scalars behind the last pair's are kept; refused, no word
 * of the five changes. Replies: 24 (more than FOREITUKA_MAX_PAIRS), 5 (a pair is not there: its place from 0 is in index; `count`, where words or
 * bytes are left over), 8 (too few words for answers or scalars), 0. */
uint32_t foreituka_compare_list(size_t count, const uint32_t *words, size_t word_count, const uint8_t *stores, size_t store_bytes,
                                const uint64_t limits[6], uint64_t allowance, int64_t *left, size_t left_words, int64_t *right,
                                size_t right_words, int64_t *work, size_t work_words, uint64_t *answers, size_t answer_words, int64_t *scalars,
                                size_t scalar_words, uint64_t *total, uint64_t *index);

/* Each store's effect, transposed: entry (r, c) sums block entry (o·d + r, o·d + c) over o. result: FOREITUKA_EFFECTS_WORDS words or more, in
 * the layout of a channel with d² entries in a record, which share an exponent of their own. 9: a partial sum is out of range, or a numerator of a
 * finished effect at that exponent. A channel as circuit_channel or pauli_channel delivered it never gets 9, nor 10 or 16, and the entries of its effects,
 * summed over the stores, are exactly the identity's. Replies: 0, 8, 9, 10, 16; asked are 10, 16, 8, 9. */
uint32_t foreituka_classical_blocks(const int64_t *channel, size_t channel_words, int64_t *result, size_t result_words);

/* Each store's effect as the textbook has it, the POVM element E = Σ K†K: tr(E ρ) is the probability that a circuit leaves the store when it is given
 * ρ. Entry (r, c) is entry (c, r) of the transposed effect; all else is as in classical_blocks, also that a delivered channel is refused for
 * short words alone, and that its effects sum to the identity: the probabilities of all stores total 1. */
uint32_t foreituka_povm_effects(const int64_t *channel, size_t channel_words, int64_t *result, size_t result_words);

/* Pack a channel: of each block, which is Hermitian, the entries (r, c) with r ≤ c alone, row after row. The records keep their order, with next indices to
 * match. result: FOREITUKA_PACKED_WORDS words or more, with as many blocks as the channel has; the words past them are kept. A refusal leaves the result as
 * it was. Replies: 10, 16, 22 (with the place along the chain of the first block that is not Hermitian), 8, 0, asked in this order. */
uint32_t foreituka_pack_channel(const int64_t *channel, size_t channel_words, int64_t *result, size_t result_words, uint64_t *index);

/* Unpack packed words: every used word of the channel that they were packed from. result: FOREITUKA_CHANNEL_WORDS words or more for as many blocks. Replies:
 * 10 (packed words that are not well formed, with a diagonal entry that has n2 or n3 too), 8, 0. A block of zeros is not refused. */
uint32_t foreituka_unpack_channel(const int64_t *packed, size_t packed_words, int64_t *result, size_t result_words, uint64_t *index);

/* Write a channel whose blocks have no √2 part with n0 and n2 alone for each entry; all else is as in pack_channel. result: FOREITUKA_PLAIN_WORDS words or
 * more. Replies: 10, 16, 23 (with the place along the chain of the first block that has a √2 part), 8, 0, asked in this order. */
uint32_t foreituka_write_plain(const int64_t *channel, size_t channel_words, int64_t *result, size_t result_words, uint64_t *index);

/* Read such words: every used word of the channel that they were written from. Replies: 10, 8, 0. */
uint32_t foreituka_read_plain(const int64_t *words, size_t word_count, int64_t *result, size_t result_words, uint64_t *index);

/* The index in `channel` of a store's block: its exponent stands there, word FOREITUKA_EXPONENT_PLACE of its record, and its 4·d^4 numerators behind
 * it. 0: a channel that is malformed or has a block of zeros, a store of the wrong length or with a byte above 1, or no such block. */
size_t foreituka_lookup(const int64_t *channel, size_t channel_words, const uint8_t *store, size_t store_bytes);

/* Whether two matrices (5·dim² words, row by row; dim 1, 2, 4, 8, 16 or 32) are equal up to a factor of modulus 1. Replies: 9 (an entry is not
 * narrow), 10, 103, 104. */
uint32_t foreituka_equivalent_up_to_global_phase(size_t left_dim, const int64_t *left, size_t left_words, size_t right_dim,
                                                 const int64_t *right, size_t right_words);

/* The circuit in a text of OpenQASM 2: the header OPENQASM 2.0; after blanks, the include of qelib1.inc, one qreg, at most one creg, then gates
 * on indexed operands: x, y, z, h, s, sdg, t, tdg, cx, cz, cy, ch, swap, ccx, cswap, measure, reset. counts are the sizes of the two registers,
 * gates gets five words a gate, words says how many; operands are not held against the sizes. The earliest fault decides, and position is how
 * many bytes stand before it; gates is asked for room last. counts, words and position are 0 where the reply says nothing of them.
 * Replies: 0, 8, 13, 14. */
uint32_t foreituka_read_qasm(const uint8_t *text, size_t text_bytes, uint32_t *gates, size_t gate_words, uint32_t counts[2], size_t *words,
                             size_t *position);

/* The text of a circuit, a gate a line, with registers q and c, which read_qasm reads back to the same counts and words. out:
 * FOREITUKA_TEXT_BYTES bytes or more always suffice; bytes says how many were written, and those behind them are kept. All gates are asked
 * for their form (5), then for the name of their kind (14), and then out for room (8). Replies: 0, 5, 8, 14. */
uint32_t foreituka_write_qasm(uint32_t qubits, uint32_t bits, const uint32_t *gates, size_t gate_words, uint8_t *out, size_t out_bytes,
                              size_t *bytes, uint64_t *index);

/* The main job: do the circuits in two texts of OpenQASM 2 the same? Both are read, judged and run, the left one first, and their channels
 * compared. store has the first classical bits' values; those behind them start as 0. gates has room for each text's gate words, first and second
 * for a channel each, work for either. answer gets the answer in words (docs/FORMATS.md): a first line for scripts, below it lines for people; it has
 * FOREITUKA_ANSWER_BYTES or more, bytes says how many were written, and those behind them are kept. numbers: for 102 store, row, column, 0, 0, 0; for
 * 105 and 106 the refusal's number, the gate's index, the byte's position, its line and column, and how many gates there are where there are too
 * many, each 0 where there is none. scalars: for 102 the left one's five words and the right one's. Replies: 8 (answer is too short, nothing is
 * done), 100, 101, 102, 105, 106. */
uint32_t foreituka_judge_texts(const uint8_t *left, size_t left_bytes, const uint8_t *right, size_t right_bytes, const uint8_t *store,
                               size_t store_bytes, const uint64_t limits[6], uint32_t *gates, size_t gate_words, int64_t *first,
                               size_t first_words, int64_t *second, size_t second_words, int64_t *work, size_t work_words, uint8_t *answer,
                               size_t answer_bytes, size_t *bytes, uint64_t numbers[6], int64_t scalars[10]);

/* The channel of the circuit in one text, in result, as circuit_channel leaves it; refused, the answer in words. store, gates, work, answer, bytes
 * and numbers as above. Replies: 0 to 8, 13, 14. */
uint32_t foreituka_text_channel(const uint8_t *text, size_t text_bytes, const uint8_t *store, size_t store_bytes, const uint64_t limits[6],
                                uint32_t *gates, size_t gate_words, int64_t *result, size_t result_words, int64_t *work, size_t work_words,
                                uint8_t *answer, size_t answer_bytes, size_t *bytes, uint64_t numbers[6]);

/* Parts of answers in words, put from the start of out on; each says how many bytes were put, and leaves out those for which there is no room. A
 * scalar as mathematics writes it, as (1 + √2)/4. Row and column of a channel's block on so many qubits, as "from input |0⟩⟨1| to output |1⟩⟨1|". The
 * bits of a store from bit 0 on, or "-" where there are none. */
size_t foreituka_number_text(const int64_t x[5], uint8_t *out, size_t out_bytes);
size_t foreituka_entry_text(uint32_t qubits, size_t row, size_t column, uint8_t *out, size_t out_bytes);
size_t foreituka_store_text(uint64_t store, uint32_t bits, uint8_t *out, size_t out_bytes);

/* The listing of a circuit that is given by numbers, or one line that says that it is refused (docs/FORMATS.md, "Listing"): how many bytes were put
 * into out. With FOREITUKA_LIST_WORDS words of result and FOREITUKA_LIST_WORK_WORDS of work, FOREITUKA_LIST_BYTES bytes hold every answer. */
size_t foreituka_list(const uint8_t *text, size_t text_bytes, int64_t *result, size_t result_words, int64_t *work, size_t work_words, uint8_t *out,
                      size_t out_bytes);

/* Scalars, exact. out is zero where the reply is not 0. integer: 0 or 9. zero, i, inv_sqrt_two (√2/2), omega (((1 + i)/√2)^(k mod 8)): 0. neg and
 * conj: 0 or 10. half and add: 0, 9 or 10. mul, of narrow scalars: 0, 9 or 10. */
uint32_t foreituka_scalar_integer(int64_t n, int64_t out[5]);
uint32_t foreituka_scalar_zero(int64_t out[5]);
uint32_t foreituka_scalar_i(int64_t out[5]);
uint32_t foreituka_scalar_inv_sqrt_two(int64_t out[5]);
uint32_t foreituka_scalar_omega(uint32_t k, int64_t out[5]);
uint32_t foreituka_scalar_neg(const int64_t x[5], int64_t out[5]);
uint32_t foreituka_scalar_conj(const int64_t x[5], int64_t out[5]);
uint32_t foreituka_scalar_half(const int64_t x[5], int64_t out[5]);
uint32_t foreituka_scalar_add(const int64_t x[5], const int64_t y[5], int64_t out[5]);
uint32_t foreituka_scalar_mul(const int64_t x[5], const int64_t y[5], int64_t out[5]);

#ifdef __cplusplus
}
#endif

#endif

/*
 * A nightly job with a budget: three pairs of circuits in one work list, under an allowance of multiply terms, in static buffers. The first pair is compared;
 * the second is passed over, since its cost would go beyond the allowance; the third has a circuit that is refused, and keeps its refusal at no cost. Then
 * the same list again with as much as all of it costs.
 */
#include "foreituka.h"

#include <inttypes.h>
#include <stdio.h>

enum { PAIRS = 3, QUBITS = 2, BITS = 1, SPLITS = 1 };

#define COUNT(a) (sizeof(a) / sizeof((a)[0]))

/* of each pair the heads of both circuits: qubits, classical bits, gate words; then the left one's gates and the right one's */
static const uint32_t words[] = {
    1, 0, 10, 1, 0, 5, /* s s and z */
    FOREITUKA_GATE_S,       0, 0, 0, 0,
    FOREITUKA_GATE_S,       0, 0, 0, 0,
    FOREITUKA_GATE_Z,       0, 0, 0, 0,
    2, 1, 15, 2, 1, 15, /* the one measures qubit 0, the other qubit 1 */
    FOREITUKA_GATE_H,       0, 0, 0, 0,
    FOREITUKA_GATE_CNOT,    0, 1, 0, 0,
    FOREITUKA_GATE_MEASURE, 0, 0, 0, 0,
    FOREITUKA_GATE_H,       0, 0, 0, 0,
    FOREITUKA_GATE_CNOT,    0, 1, 0, 0,
    FOREITUKA_GATE_MEASURE, 1, 0, 0, 0,
    1, 0, 5, 1, 0, 10, /* the right one has no qubit 1 */
    FOREITUKA_GATE_H,       0, 0, 0, 0,
    FOREITUKA_GATE_H,       0, 0, 0, 0,
    FOREITUKA_GATE_X,       1, 0, 0, 0,
};
/* a byte for each classical bit, the second pair's two circuits have one each */
static const uint8_t stores[] = {0, 0};

static const uint64_t limits[6] = FOREITUKA_DEFAULT_LIMITS;
static int64_t left[FOREITUKA_CHANNEL_WORDS(QUBITS, BITS)], right[FOREITUKA_CHANNEL_WORDS(QUBITS, BITS)];
static int64_t work[FOREITUKA_CHANNEL_WORK_WORDS(QUBITS, SPLITS)];
static uint64_t answers[PAIRS * FOREITUKA_ANSWER_WORDS];
static int64_t scalars[PAIRS * FOREITUKA_ANSWER_SCALARS];

static void print_answer(const uint64_t *a)
{
    switch (a[0]) {
    case FOREITUKA_SAME:
        printf("same, for %" PRIu64 " terms\n", a[1]);
        break;
    case FOREITUKA_ENTRY:
        printf("different at store %" PRIu64 ", row %" PRIu64 ", column %" PRIu64 ", for %" PRIu64 " terms\n", a[2], a[3], a[4], a[1]);
        break;
    case FOREITUKA_PASSED_OVER:
        printf("passed over; it costs %" PRIu64 " terms\n", a[1]);
        break;
    case FOREITUKA_LEFT_REFUSED:
    case FOREITUKA_RIGHT_REFUSED:
        printf("%s refused %" PRIu64 ", index %" PRIu64 "\n", a[0] == FOREITUKA_LEFT_REFUSED ? "left" : "right", a[5], a[6]);
        break;
    default:
        printf("reply %" PRIu64 "\n", a[0]);
    }
}

/* all answers under an allowance; 1 if they are those that are due */
static int serve(uint64_t allowance, uint32_t second_due, uint64_t total_due)
{
    uint64_t total, index;
    uint32_t reply = foreituka_compare_list(PAIRS, words, COUNT(words), stores, sizeof stores, limits, allowance, left, COUNT(left), right, COUNT(right), work, COUNT(work),
                                            answers, COUNT(answers), scalars, COUNT(scalars), &total, &index);
    printf("allowance %" PRIu64 ": reply %u, %" PRIu64 " terms spent\n", allowance, (unsigned)reply, total);
    if (reply != FOREITUKA_ACCEPTED) return 0;
    for (size_t i = 0; i < PAIRS; i++) {
        printf("  pair %u: ", (unsigned)i);
        print_answer(answers + i * FOREITUKA_ANSWER_WORDS);
    }
    return answers[0] == FOREITUKA_SAME && answers[FOREITUKA_ANSWER_WORDS] == second_due && answers[2 * FOREITUKA_ANSWER_WORDS] == FOREITUKA_RIGHT_REFUSED && total == total_due;
}

int main(void)
{
    uint64_t whole;
    int ok = serve(1000, FOREITUKA_PASSED_OVER, 80);
    whole = answers[1] + answers[FOREITUKA_ANSWER_WORDS + 1]; /* an answer tells the cost of a pair that is passed over, too */
    ok &= serve(whole, FOREITUKA_ENTRY, whole);
    return ok ? 0 : 1;
}

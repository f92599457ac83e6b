/*
 * Two circuits as texts of OpenQASM 2: do they do the same? One call, in static buffers for 2 qubits. The answer comes as a number and as bytes that
 * people can read.
 */
#include "foreituka.h"

#include <stdio.h>
#include <string.h>

enum { QUBITS = 2, BITS = 2, SPLITS = 2, GATES = 64 };

#define TOP "OPENQASM 2.0;\ninclude \"qelib1.inc\";\nqreg q[2];\ncreg c[2];\n"
static const char before[] = TOP "cx q[0],q[1];\ncx q[1],q[0];\ncx q[0],q[1];\nmeasure q[0]->c[0];\n";
static const char after[] = TOP "swap q[0],q[1];\nmeasure q[0]->c[0];\n";
static const char careless[] = TOP "swap q[0],q[1];\nmeasure q[1]->c[0];\n";
static const char damaged[] = TOP "swap q[0],q[2];\nmeasure q[0]->c[0];\n";

static uint32_t gates[5 * GATES];
static int64_t first[FOREITUKA_CHANNEL_WORDS(QUBITS, BITS)], second[FOREITUKA_CHANNEL_WORDS(QUBITS, BITS)];
static int64_t work[FOREITUKA_CHANNEL_WORK_WORDS(QUBITS, SPLITS)];
static uint8_t answer[FOREITUKA_ANSWER_BYTES];
#define COUNT(a) (sizeof(a) / sizeof((a)[0]))

/* 1 for the same; every other reply, refusals among them, is 0 */
static int is_same(const char *left, const char *right)
{
    const uint64_t limits[6] = FOREITUKA_DEFAULT_LIMITS;
    size_t bytes;
    uint64_t numbers[6];
    int64_t scalars[10];
    /* no store is given: all classical bits start as 0 */
    uint32_t reply = foreituka_judge_texts((const uint8_t *)left, strlen(left), (const uint8_t *)right, strlen(right), NULL, 0, limits, gates, COUNT(gates), first,
                                           COUNT(first), second, COUNT(second), work, COUNT(work), answer, sizeof answer, &bytes, numbers, scalars);
    printf("reply %u: %.*s", (unsigned)reply, (int)bytes, (const char *)answer);
    return reply == FOREITUKA_SAME;
}

int main(void)
{
    int as_expected = is_same(before, after);
    as_expected &= !is_same(before, careless);
    as_expected &= !is_same(before, damaged);
    return as_expected ? 0 : 1;
}

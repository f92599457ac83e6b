/*
 * An editor that asks for the verdict at every keystroke: a circuit kept with its counts in static words. When it is accepted, its gates are copied out
 * and its channel worked out.
 */
#include "foreituka.h"

#include <stdio.h>

enum { QUBITS = 1, BITS = 1, SPLITS = 1, PLACES = 8 };

static int64_t words[FOREITUKA_KEPT_WORDS(PLACES)];
static uint32_t gates[5 * PLACES];
static int64_t result[FOREITUKA_CHANNEL_WORDS(QUBITS, BITS)], work[FOREITUKA_CHANNEL_WORK_WORDS(QUBITS, SPLITS)];
static const uint8_t store[BITS] = {0};
static const uint64_t limits[6] = FOREITUKA_DEFAULT_LIMITS;
#define COUNT(a) (sizeof(a) / sizeof((a)[0]))

/* the reply to an edit and, where it was accepted, the verdict on the circuit */
static int shown(const char *edit, uint32_t reply, uint32_t due, uint32_t verdict_due)
{
    uint32_t verdict = foreituka_kept_verdict(words, COUNT(words), store, sizeof store, limits, COUNT(result), COUNT(work));
    printf("%s: %u; %u gates, verdict %u\n", edit, (unsigned)reply, (unsigned)words[2], (unsigned)verdict);
    return reply == due && verdict == verdict_due;
}

int main(void)
{
    const uint32_t h[5] = {FOREITUKA_GATE_H, 0, 0, 0, 0}, measure[5] = {FOREITUKA_GATE_MEASURE, 0, 0, 0, 0}, wrong[5] = {FOREITUKA_GATE_H, 1, 0, 0, 0};
    uint64_t index;
    int ok = shown("start", foreituka_kept_start(QUBITS, BITS, words, COUNT(words)), FOREITUKA_ACCEPTED, FOREITUKA_ACCEPTED);
    ok &= shown("append h 0", foreituka_kept_append(words, COUNT(words), h, &index), FOREITUKA_ACCEPTED, FOREITUKA_ACCEPTED);
    ok &= shown("append h 1", foreituka_kept_append(words, COUNT(words), wrong, &index), FOREITUKA_OPERAND, FOREITUKA_ACCEPTED);
    ok &= shown("append measure 0 0", foreituka_kept_append(words, COUNT(words), measure, &index), FOREITUKA_ACCEPTED, FOREITUKA_ACCEPTED);
    ok &= shown("append measure 0 0", foreituka_kept_append(words, COUNT(words), measure, &index), FOREITUKA_ACCEPTED, FOREITUKA_SHORT);
    ok &= shown("remove", foreituka_kept_remove(words, COUNT(words)), FOREITUKA_ACCEPTED, FOREITUKA_ACCEPTED);
    ok &= shown("replace gate 2", foreituka_kept_replace(words, COUNT(words), 2, h, &index), FOREITUKA_NO_GATE, FOREITUKA_ACCEPTED);
    ok &= foreituka_kept_gates(words, COUNT(words), gates, COUNT(gates)) == FOREITUKA_ACCEPTED;
    ok &= foreituka_circuit_channel((uint32_t)words[0], (uint32_t)words[1], store, sizeof store, gates, 5 * (size_t)words[2], limits, result, COUNT(result), work, COUNT(work), &index) == FOREITUKA_ACCEPTED;
    printf("its channel has %u blocks\n", (unsigned)result[2]);
    return ok && result[2] == 2 ? 0 : 1;
}

/*
 * A Pauli program and a circuit that does the same, in static buffers: rotations about products of Z, and a measure of Z into a bit.
 * Their channels are compared, and one program is refused.
 */
#include "foreituka.h"

#include <stdio.h>

enum { QUBITS = 2, BITS = 1, MEASURES = 1, NODES = 6 };

#define COUNT(a) (sizeof(a) / sizeof((a)[0]))

/* nodes 0 to 4 are the identity, X and Z of qubit 0, X and Z of qubit 1; one is listed, node 5: Z of qubit 0 times Z of qubit 1 */
enum { Z0 = 2, Z1 = 4, ZZ = 5 };
static const uint32_t nodes[] = {
    FOREITUKA_NODE_TIMES, Z0, 0, Z1, 0,
};
/* a quarter turn about ZZ, an eighth about Z of qubit 0, then qubit 1 measured in Z */
static const uint32_t operations[] = {
    FOREITUKA_ROTATE,       ZZ, 0, 2, 0,
    FOREITUKA_ROTATE,       Z0, 0, 1, 0,
    FOREITUKA_MEASURE_INTO, Z1, 0, 0, 0,
};
/* the same by gates: a rotation about Z by k eighths is rz(k), and one about ZZ is that between two cnot */
static const uint32_t gates[] = {
    FOREITUKA_GATE_CNOT,    0, 1, 0, 0,
    FOREITUKA_GATE_RZ,      1, 0, 0, 2,
    FOREITUKA_GATE_CNOT,    0, 1, 0, 0,
    FOREITUKA_GATE_RZ,      0, 0, 0, 1,
    FOREITUKA_GATE_MEASURE, 1, 0, 0, 0,
};
/* i times Z is not its own adjoint: no axis */
static const uint32_t turned[] = {
    FOREITUKA_ROTATE, Z0, 0, 1, 0,
    FOREITUKA_ROTATE, Z0, 1, 1, 0,
};

static const uint8_t store[BITS] = {0};
static const uint64_t limits[6] = FOREITUKA_DEFAULT_LIMITS;
static int64_t left[FOREITUKA_CHANNEL_WORDS(QUBITS, BITS)], right[FOREITUKA_CHANNEL_WORDS(QUBITS, BITS)];
/* a program asks for more work words than a circuit of as many measures */
static int64_t work[FOREITUKA_PAULI_WORK_WORDS(QUBITS, MEASURES, NODES)];

static uint32_t run_program(const uint32_t *list, size_t words)
{
    uint64_t index;
    uint32_t reply = foreituka_pauli_channel(QUBITS, BITS, store, sizeof store, nodes, COUNT(nodes), list, words, limits, left, COUNT(left), work, COUNT(work), &index);
    if (reply == FOREITUKA_ACCEPTED)
        printf("program of %u operations: accepted\n", (unsigned)(words / 5));
    else
        printf("program of %u operations: refused %u, index %u\n", (unsigned)(words / 5), (unsigned)reply, (unsigned)index);
    return reply;
}

int main(void)
{
    uint64_t index, place[3];
    int64_t scalars[10];
    uint32_t reply;
    int ok = run_program(operations, COUNT(operations)) == FOREITUKA_ACCEPTED;
    ok &= foreituka_circuit_channel(QUBITS, BITS, store, sizeof store, gates, COUNT(gates), limits, right, COUNT(right), work, COUNT(work), &index) == FOREITUKA_ACCEPTED;
    reply = foreituka_compare(left, COUNT(left), right, COUNT(right), place, scalars);
    printf("program and circuit: %s\n", reply == FOREITUKA_SAME ? "same" : "not the same");
    ok &= reply == FOREITUKA_SAME;
    ok &= run_program(turned, COUNT(turned)) == FOREITUKA_AXIS;
    return ok ? 0 : 1;
}

/*
 * Channels kept in fewer words: a circuit of the plain-gate profile has no √2 parts, so its channel can be kept without them, and each channel can be packed to
 * half of its entries. Both ways back restore every word. A channel with √2 parts is not written without them.
 */
#include "foreituka.h"

#include <stdio.h>
#include <string.h>

enum { QUBITS = 2, BITS = 1, SPLITS = 1, BLOCKS = 2 };

#define COUNT(a) (sizeof(a) / sizeof((a)[0]))

/* of the profile. h is admitted: entries of channels are products of two entries of matrices, and √2 times √2 is 2 */
static const uint32_t plain[] = {
    FOREITUKA_GATE_H,       0, 0, 0, 0,
    FOREITUKA_GATE_CNOT,    0, 1, 0, 0,
    FOREITUKA_GATE_RZ,      1, 0, 0, 2,
    FOREITUKA_GATE_MEASURE, 0, 0, 0, 0,
};
/* t is outside it */
static const uint32_t other[] = {
    FOREITUKA_GATE_H,       0, 0, 0, 0,
    FOREITUKA_GATE_T,       0, 0, 0, 0,
    FOREITUKA_GATE_MEASURE, 1, 0, 0, 0,
};

static const uint8_t store[BITS] = {0};
static const uint64_t limits[6] = FOREITUKA_DEFAULT_LIMITS;
static int64_t channel[FOREITUKA_CHANNEL_WORDS(QUBITS, BITS)], back[FOREITUKA_CHANNEL_WORDS(QUBITS, BITS)];
static int64_t work[FOREITUKA_CHANNEL_WORK_WORDS(QUBITS, SPLITS)];
static int64_t kept[FOREITUKA_PLAIN_WORDS(QUBITS, BLOCKS)], packed[FOREITUKA_PACKED_WORDS(QUBITS, BLOCKS)];

/* whether every word has come back, which are then forgotten */
static int restored(const char *name, size_t words)
{
    int ok = memcmp(channel, back, sizeof channel) == 0;
    printf("%s: %u words for %u, %s\n", name, (unsigned)words, (unsigned)COUNT(channel), ok ? "and back" : "and not back");
    memset(back, 0, sizeof back);
    return ok;
}

int main(void)
{
    uint64_t index;
    uint32_t reply;
    int ok = foreituka_plain_channel(QUBITS, BITS, store, sizeof store, plain, COUNT(plain), limits, channel, COUNT(channel), work, COUNT(work), &index) == FOREITUKA_ACCEPTED;
    ok &= foreituka_write_plain(channel, COUNT(channel), kept, COUNT(kept), &index) == FOREITUKA_ACCEPTED;
    ok &= foreituka_read_plain(kept, COUNT(kept), back, COUNT(back), &index) == FOREITUKA_ACCEPTED;
    ok &= restored("without √2 parts", COUNT(kept));
    ok &= foreituka_pack_channel(channel, COUNT(channel), packed, COUNT(packed), &index) == FOREITUKA_ACCEPTED;
    ok &= foreituka_unpack_channel(packed, COUNT(packed), back, COUNT(back), &index) == FOREITUKA_ACCEPTED;
    ok &= restored("packed", COUNT(packed));

    reply = foreituka_plain_channel(QUBITS, BITS, store, sizeof store, other, COUNT(other), limits, channel, COUNT(channel), work, COUNT(work), &index);
    printf("with t: refused %u, index %u\n", (unsigned)reply, (unsigned)index);
    ok &= reply == FOREITUKA_PLAIN && index == 1;
    ok &= foreituka_circuit_channel(QUBITS, BITS, store, sizeof store, other, COUNT(other), limits, channel, COUNT(channel), work, COUNT(work), &index) == FOREITUKA_ACCEPTED;
    reply = foreituka_write_plain(channel, COUNT(channel), kept, COUNT(kept), &index);
    printf("its channel without √2 parts: refused %u, block %u\n", (unsigned)reply, (unsigned)index);
    ok &= reply == FOREITUKA_PLAIN;
    ok &= foreituka_pack_channel(channel, COUNT(channel), packed, COUNT(packed), &index) == FOREITUKA_ACCEPTED;
    ok &= foreituka_unpack_channel(packed, COUNT(packed), back, COUNT(back), &index) == FOREITUKA_ACCEPTED;
    ok &= restored("packed", COUNT(packed));
    return ok ? 0 : 1;
}

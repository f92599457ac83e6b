/*
 * The fuzzer's input is a circuit: eight bytes of counts, then gates. A gate is a byte of its kind and, if this is below 224, a byte for each word that the kind uses,
 * which stands for itself or for a large number; else its five words as they are. What is left over at the end, if it is less than a gate, is so many words too many.
 * What has to hold, beside what lent.h asks of every call: questions 2 and 4, and the names of the kinds, as they are asked here, decide; and check_written.
 */
#include "lent.h"

enum { MOST_WORDS = 4096 };

/* by kind: how many of the words a, b, c it uses, and whether it has a name */
static const uint8_t used[27] = {1, 1, 1, 1, 1, 1, 1, 1, 2, 2, 3, 3, 2, 1, 1, 1, 1, 1, 1, 2, 2, 2, 2, 2, 2, 2, 3};
static const char named[] = "111111101110110100011000011";

static const uint32_t large[] = {999, 1000, 65536, 999999999, 1000000000, 2147483648, 4294967294, 4294967295};

static uint32_t number_at(const uint8_t *p) { return (uint32_t)p[0] | (uint32_t)p[1] << 8 | (uint32_t)p[2] << 16 | (uint32_t)p[3] << 24; }

static int is_formed(const uint32_t *g) {
    if (g[0] > 26 || (g[0] == 7 ? g[4] > 8 : g[4] != 0)) return 0;
    for (int i = used[g[0]]; i < 3; i++)
        if (g[1 + i] != 0) return 0;
    return 1;
}

int LLVMFuzzerTestOneInput(const uint8_t *data, size_t size) {
    static uint32_t gates[MOST_WORDS];
    size_t words = 0, at = 8;
    if (size < 8) return 0;
    uint32_t counts[2] = {number_at(data), number_at(data + 4)};
    while (at < size && words + WORDS <= MOST_WORDS) {
        uint32_t *g = gates + words;
        memset(g, 0, WORDS * sizeof *g);
        if (data[at] < 224) {
            g[0] = data[at] % 28;
            size_t wants = g[0] < 27 ? used[g[0]] : 1;
            if (size - at - 1 < wants) break;
            for (size_t i = 1; i <= wants; i++) g[i] = data[at + i] < 248 ? data[at + i] : large[data[at + i] - 248];
            at += 1 + wants;
        } else {
            if (size - at - 1 < 4 * WORDS) break;
            for (int i = 0; i < WORDS; i++) g[i] = number_at(data + at + 1 + 4 * i);
            at += 1 + 4 * WORDS;
        }
        words += WORDS;
    }
    if (at < size && size - at < WORDS && words + WORDS <= MOST_WORDS) words += size - at;
    uint32_t number = words % WORDS ? GATES : ACCEPTED;
    uint64_t index = 0;
    for (size_t i = 0; number == ACCEPTED && i < words; i += WORDS)
        if (!is_formed(gates + i)) number = GATES, index = i / WORDS;
    for (size_t i = 0; number == ACCEPTED && i < words; i += WORDS)
        if (named[gates[i]] == '0') number = NAME, index = i / WORDS;
    writing w = write_text(counts, gates, words, most_bytes(words)), none = write_text(counts, gates, words, 0);
    HOLDS(w.number == number && w.index == index);
    HOLDS(none.number == (number == ACCEPTED ? SHORT : number) && none.index == index);
    if (number == ACCEPTED) check_written(counts, gates, words);
    free(w.text);
    free(none.text);
    return 0;
}

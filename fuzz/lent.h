/*
 * What the harnesses lend to the calls: blocks of exactly the size given, in three ways. A block of the heap has the address sanitizer's edges, which
 * instrumented code trips over; a block that ends, or begins, at a page that nobody may touch stops any code that leaves it.
 */
#ifndef LENT_HEADER
#define LENT_HEADER

#include <stddef.h>
#include <stdint.h>
#include <stdio.h>
#include <stdlib.h>
#include <string.h>
#include <sys/mman.h>

/* what has to hold: else the fuzzer is told, with the input */
#define HOLDS(what)                                                                \
    do {                                                                           \
        if (!(what)) {                                                             \
            fprintf(stderr, "%s:%d: does not hold: %s\n", __FILE__, __LINE__, #what); \
            abort();                                                               \
        }                                                                          \
    } while (0)

enum { HEAP, BEFORE_GUARD, BEHIND_GUARD, WAYS };
enum { BLOCKS = 8, PAGE = 4096, ROOM = 64 * PAGE };

/* The calls of the archive, and the plain C version's. */
#define CALLS(prefix)                                                                                                                             \
    uint32_t prefix##_read_qasm(const uint8_t *text, size_t text_bytes, uint32_t *gates, size_t gate_words, uint32_t counts[2], size_t *words,    \
                                size_t *position);                                                                                                \
    uint32_t prefix##_write_qasm(uint32_t qubits, uint32_t bits, const uint32_t *gates, size_t gate_words, uint8_t *out, size_t out_bytes,        \
                                 size_t *bytes, uint64_t *index);
CALLS(foreituka)
CALLS(plain)

enum { ACCEPTED = 0, GATES = 5, SHORT = 8, FORM = 13, NAME = 14, WORDS = 5 };

typedef struct {
    uint8_t *at;
    size_t bytes;
    int way;
} block;

/* a block; those that are lent at once in a guarded way have different places `which` */
static inline block lend(int way, int which, size_t bytes) {
    static uint8_t *arena;
    if (way == HEAP) {
        block b = {bytes ? malloc(bytes) : NULL, bytes, way};
        HOLDS(b.at || bytes == 0);
        return b;
    }
    if (!arena) {
        arena = mmap(NULL, BLOCKS * (ROOM + 2 * PAGE), PROT_READ | PROT_WRITE, MAP_PRIVATE | MAP_ANONYMOUS, -1, 0);
        HOLDS(arena != MAP_FAILED);
        for (int i = 0; i < BLOCKS; i++) {
            uint8_t *low = arena + (size_t)i * (ROOM + 2 * PAGE);
            HOLDS(mprotect(low, PAGE, PROT_NONE) == 0 && mprotect(low + PAGE + ROOM, PAGE, PROT_NONE) == 0);
        }
    }
    HOLDS(bytes <= ROOM && which < BLOCKS);
    uint8_t *low = arena + (size_t)which * (ROOM + 2 * PAGE) + PAGE;
    return (block){way == BEFORE_GUARD ? low + ROOM - bytes : low, bytes, way};
}

static inline void give_back(block b) {
    if (b.way == HEAP) free(b.at);
}

static inline uint8_t noise(size_t i) { return (uint8_t)(i * 151 + 77); }

static inline void fill(block b) {
    for (size_t i = 0; i < b.bytes; i++) b.at[i] = noise(i);
}

/* from byte `from` on the block holds what `fill` put there */
static inline int is_kept(block b, size_t from) {
    for (size_t i = from; i < b.bytes; i++)
        if (b.at[i] != noise(i)) return 0;
    return 1;
}

/* ---- the calls, with every lent block of its own ---- */

typedef struct {
    uint32_t number, counts[2];
    size_t words, position;
    uint32_t *gates; /* `words` of them, to be freed */
} reading;

typedef uint32_t read_call(const uint8_t *, size_t, uint32_t *, size_t, uint32_t[2], size_t *, size_t *);
typedef uint32_t write_call(uint32_t, uint32_t, const uint32_t *, size_t, uint8_t *, size_t, size_t *, uint64_t *);

static inline reading read_in(read_call *call, int way, const uint8_t *text, size_t bytes, size_t room) {
    block given = lend(way, 0, bytes), gates = lend(way, 1, 4 * room), counts = lend(way, 2, 8), words = lend(way, 3, 8), position = lend(way, 4, 8);
    if (bytes) memcpy(given.at, text, bytes);
    fill(gates);
    fill(counts);
    fill(words);
    fill(position);
    reading r = {.gates = NULL};
    r.number = call(given.at, bytes, (uint32_t *)gates.at, room, (uint32_t *)counts.at, (size_t *)words.at, (size_t *)position.at);
    memcpy(r.counts, counts.at, 8);
    memcpy(&r.words, words.at, 8);
    memcpy(&r.position, position.at, 8);
    HOLDS(bytes == 0 || memcmp(given.at, text, bytes) == 0);
    HOLDS(r.words <= room);
    HOLDS(is_kept(gates, 4 * r.words));
    HOLDS(r.number == ACCEPTED || (r.words == 0 && r.counts[0] == 0 && r.counts[1] == 0));
    HOLDS(r.number == FORM || r.number == NAME || r.position == 0);
    HOLDS(r.number == ACCEPTED || r.number == SHORT || r.number == FORM || r.number == NAME);
    HOLDS(r.position <= bytes);
    r.gates = malloc(4 * r.words + 1);
    HOLDS(r.gates);
    if (r.words) memcpy(r.gates, gates.at, 4 * r.words);
    give_back(given);
    give_back(gates);
    give_back(counts);
    give_back(words);
    give_back(position);
    return r;
}

static inline int same_reading(const reading *a, const reading *b) {
    return a->number == b->number && a->counts[0] == b->counts[0] && a->counts[1] == b->counts[1] && a->words == b->words && a->position == b->position &&
           (a->words == 0 || memcmp(a->gates, b->gates, 4 * a->words) == 0);
}

/* by the archive in every way, and by plain C: all alike */
static inline reading read_text(const uint8_t *text, size_t bytes, size_t room) {
    reading r = read_in(plain_read_qasm, HEAP, text, bytes, room);
    for (int way = 0; way < WAYS; way++) {
        reading other = read_in(foreituka_read_qasm, way, text, bytes, room);
        HOLDS(same_reading(&r, &other));
        free(other.gates);
    }
    return r;
}

typedef struct {
    uint32_t number;
    size_t bytes;
    uint64_t index;
    uint8_t *text; /* `bytes` of it, to be freed */
} writing;

static inline writing write_in(write_call *call, int way, const uint32_t counts[2], const uint32_t *gates, size_t words, size_t room) {
    block given = lend(way, 0, 4 * words), out = lend(way, 1, room), bytes = lend(way, 2, 8), index = lend(way, 3, 8);
    if (words) memcpy(given.at, gates, 4 * words);
    fill(out);
    fill(bytes);
    fill(index);
    writing w = {.text = NULL};
    w.number = call(counts[0], counts[1], (const uint32_t *)given.at, words, out.at, room, (size_t *)bytes.at, (uint64_t *)index.at);
    memcpy(&w.bytes, bytes.at, 8);
    memcpy(&w.index, index.at, 8);
    HOLDS(words == 0 || memcmp(given.at, gates, 4 * words) == 0);
    HOLDS(w.bytes <= room);
    HOLDS(is_kept(out, w.bytes));
    HOLDS(w.number == ACCEPTED || w.bytes == 0);
    HOLDS(w.number == GATES || w.number == NAME || w.index == 0);
    HOLDS(w.number == ACCEPTED || w.number == GATES || w.number == SHORT || w.number == NAME);
    w.text = malloc(w.bytes + 1);
    HOLDS(w.text);
    if (w.bytes) memcpy(w.text, out.at, w.bytes);
    give_back(given);
    give_back(out);
    give_back(bytes);
    give_back(index);
    return w;
}

static inline writing write_text(const uint32_t counts[2], const uint32_t *gates, size_t words, size_t room) {
    writing w = write_in(plain_write_qasm, HEAP, counts, gates, words, room);
    for (int way = 0; way < WAYS; way++) {
        writing other = write_in(foreituka_write_qasm, way, counts, gates, words, room);
        HOLDS(w.number == other.number && w.bytes == other.bytes && w.index == other.index && (w.bytes == 0 || memcmp(w.text, other.text, w.bytes) == 0));
        free(other.text);
    }
    return w;
}

/* the most bytes that a list of so many words is written in */
static inline size_t most_bytes(size_t words) { return 76 + 49 * (words / WORDS); }

/* An accepted list is written where there is just enough room, refused where there is a byte less, and its text is read back to the same counts and words. */
static inline void check_written(const uint32_t counts[2], const uint32_t *gates, size_t words) {
    writing w = write_text(counts, gates, words, most_bytes(words));
    HOLDS(w.number == ACCEPTED);
    writing exact = write_text(counts, gates, words, w.bytes), less = write_text(counts, gates, words, w.bytes - 1);
    HOLDS(exact.number == ACCEPTED && exact.bytes == w.bytes && memcmp(exact.text, w.text, w.bytes) == 0);
    HOLDS(less.number == SHORT);
    reading back = read_text(w.text, w.bytes, words);
    HOLDS(back.number == ACCEPTED && back.counts[0] == counts[0] && back.counts[1] == counts[1] && back.words == words);
    HOLDS(words == 0 || memcmp(back.gates, gates, 4 * words) == 0);
    free(w.text);
    free(exact.text);
    free(less.text);
    free(back.gates);
}

#endif

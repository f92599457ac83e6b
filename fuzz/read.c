/*
 * The fuzzer's input is a text. What has to hold of it, beside what lent.h asks of every call:
 * - refused: so it is with no room; up to the fault the text has none but its end; a newline more changes nothing behind the fault;
 * - accepted: so it is where there is just enough room, and refused as short where there is a word less; a comment more changes nothing; its words are
 *   written, and read back to the same counts and words.
 */
#include "lent.h"

static const char comment[] = "// more";

int LLVMFuzzerTestOneInput(const uint8_t *data, size_t size) {
    size_t room = WORDS * (size / 7); /* a gate has seven bytes or more */
    reading r = read_text(data, size, room);
    uint8_t *more = malloc(size + sizeof comment);
    HOLDS(more);
    if (size) memcpy(more, data, size);
    if (r.number == ACCEPTED) {
        memcpy(more + size, comment, sizeof comment - 1);
        reading longer = read_text(more, size + sizeof comment - 1, room), exact = read_text(data, size, r.words);
        HOLDS(same_reading(&longer, &r) && same_reading(&exact, &r));
        free(longer.gates);
        free(exact.gates);
        if (r.words) {
            reading less = read_text(data, size, r.words - 1), none = read_text(data, size, 0);
            HOLDS(less.number == SHORT && none.number == SHORT);
            free(less.gates);
            free(none.gates);
        }
        check_written(r.counts, r.gates, r.words);
    } else {
        HOLDS(r.number == FORM || r.number == NAME);
        HOLDS(r.number == FORM || r.position < size);
        more[size] = '\n';
        reading none = read_text(data, size, 0), before = read_text(data, r.position, room), longer = read_text(more, size + 1, room);
        HOLDS(same_reading(&none, &r));
        HOLDS(before.number == ACCEPTED || (before.number == FORM && before.position == r.position));
        HOLDS(r.position == size || same_reading(&longer, &r));
        free(none.gates);
        free(before.gates);
        free(longer.gates);
    }
    free(more);
    free(r.gates);
    return 0;
}

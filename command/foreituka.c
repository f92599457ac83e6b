/*
 * foreituka, the command: do two circuits in OpenQASM 2 do the same? Everything that decides is a proved call of libforeituka.a: what it
 * answers is printed as it stands. This file reads files and prints; it is tested (command/check), not proved. Decimal values, marked with
 * ≈, are its own, rounded, and decide nothing.
 */
#define _POSIX_C_SOURCE 200809L
#include "foreituka.h"

#include <errno.h>
#include <inttypes.h>
#include <math.h>
#include <stdio.h>
#include <stdlib.h>
#include <string.h>
#include <time.h>
#include <unistd.h>

/* exit statuses, as of cmp and diff */
enum { SAME = 0, DIFFERENT = 1, TROUBLE = 2 };

/* A channel within the limits has less than max_matrix_cells entries, so that two bits' blocks on four qubits have room for every one. */
enum { QUBITS = 4, SPLITS = 6, BITS = FOREITUKA_MAX_CLASSICAL_BITS, GATES = FOREITUKA_MAX_OPERATIONS, MEGABYTES = 16, TEXT = MEGABYTES << 20 };
static const uint64_t limits[6] = {QUBITS, FOREITUKA_MAX_MATRIX_CELLS, FOREITUKA_MAX_MULTIPLY_TERMS, GATES, FOREITUKA_MAX_BRANCHES, BITS};
static uint32_t gates[5 * GATES];
static int64_t first[FOREITUKA_CHANNEL_WORDS(QUBITS, 2)], second[FOREITUKA_CHANNEL_WORDS(QUBITS, 2)];
static int64_t work[FOREITUKA_CHANNEL_WORK_WORDS(QUBITS, SPLITS)];
static int64_t effects[FOREITUKA_EFFECTS_WORDS(QUBITS, FOREITUKA_MAX_BRANCHES)];
static uint8_t answer[FOREITUKA_ANSWER_BYTES + 16], words[1024]; /* a side's name may go in front of an answer */
static uint8_t page[FOREITUKA_LIST_BYTES];
#define COUNT(a) (sizeof(a) / sizeof((a)[0]))

/* one byte more than is taken: a longer text is seen by it */
typedef struct {
    uint8_t bytes[TEXT + 1];
    size_t size;
} text;
static text left, right, pairs;

static uint8_t store[BITS]; /* the first classical bits' values, as --store gives them */
static size_t store_bytes;
static int json;

static const char usage[] =
    "foreituka compare [--store BITS] [--json] LEFT RIGHT\n"
    "foreituka compare [--store BITS] [--json] --list PAIRS [--allowance N]\n"
    "foreituka channel [--store BITS] [--json] FILE\n"
    "foreituka effects [--store BITS] [--json] FILE\n"
    "foreituka list [FILE]\n"
    "\n"
    "compare  says whether two circuits in OpenQASM 2 do the same, exactly\n"
    "channel  prints all that a circuit does, entry by entry\n"
    "effects  prints which inputs leave which classical bits\n"
    "list     lists the channel of a circuit given by numbers, from FILE or standard input\n"
    "\n"
    "--store BITS  the first classical bits start so, as 010, bit 0 first; the others as 0\n"
    "--json        answers in JSON, an object a line\n"
    "--list PAIRS  judges many pairs: the file PAIRS has a line of two names for each\n"
    "--allowance N  spends at most N multiply terms on a list: what is beyond is passed over\n"
    "--help, --version\n"
    "\n"
    "A file named - is standard input. Exit status: 0 same (or printed), 1 different, 2 refused, unreadable or not written.\n"
    "Circuits have at most 4 qubits, 1024 gates and 64 classical bits. foreituka(1) has more.\n";

static const char *shown_name(const char *name) { return strcmp(name, "-") ? name : "standard input"; }

static int wrong(const char *what, const char *which)
{
    fprintf(stderr, "foreituka: %s%s%s (foreituka --help says what it takes)\n", what, *which ? ": " : "", which);
    return TROUBLE;
}

/* Reads a file, or standard input for "-". Answers NULL, or what is wrong. */
static const char *read_text(const char *name, text *t)
{
    FILE *file = strcmp(name, "-") ? fopen(name, "rb") : stdin;
    if (!file) return strerror(errno);
    t->size = fread(t->bytes, 1, sizeof t->bytes, file);
    const char *fault = ferror(file) ? strerror(errno) : t->size > TEXT ? "more than 16 MB, and no more are read: shorten it" : NULL;
    if (file != stdin) fclose(file);
    return fault;
}

/* ---- decimal values ---- */
__extension__ typedef __int128 wide;

/* (a + b√2) / 2^e. Where the two terms cancel, a² − 2b² is exact, and a − b√2 cancels nothing. */
static double decimal(int64_t a, int64_t b, int64_t e)
{
    const double root = 1.41421356237309504880;
    double sum = (double)a + (double)b * root;
    if ((a < 0 && b > 0) || (a > 0 && b < 0)) sum = (double)((wide)a * a - 2 * (wide)b * b) / ((double)a - (double)b * root);
    return ldexp(sum, -(int)e);
}

static double re(const int64_t x[5]) { return decimal(x[0], x[1], x[4]); }
static double im(const int64_t x[5]) { return decimal(x[2], x[3], x[4]); }

static void put_decimal(const int64_t x[5])
{
    double a = re(x), b = im(x);
    if (b == 0) printf("%.15g", a);
    else if (a == 0) printf("%.15gi", b);
    else printf("%.15g %c %.15gi", a, b < 0 ? '-' : '+', fabs(b));
}

/* how far two scalars are apart: their difference is exact, its modulus is rounded; below 0 where the difference is out of range */
static double apart(const int64_t x[10])
{
    int64_t minus[5], difference[5];
    if (foreituka_scalar_neg(x + 5, minus) || foreituka_scalar_add(x, minus, difference)) return -1;
    return hypot(re(difference), im(difference));
}

/* ---- JSON ---- */
/* how many bytes the UTF-8 character at the start of b takes, 0 for none */
static size_t utf8_size(const uint8_t *b, size_t n)
{
    size_t size = b[0] < 0x80 ? 1 : b[0] < 0xc2 ? 0 : b[0] < 0xe0 ? 2 : b[0] < 0xf0 ? 3 : b[0] < 0xf5 ? 4 : 0;
    if (size > n) return 0;
    for (size_t i = 1; i < size; i++)
        if ((b[i] & 0xc0) != 0x80) return 0;
    if ((b[0] == 0xe0 && b[1] < 0xa0) || (b[0] == 0xed && b[1] > 0x9f) || (b[0] == 0xf0 && b[1] < 0x90) || (b[0] == 0xf4 && b[1] > 0x8f)) return 0;
    return size;
}

/* a name that is no UTF-8 has U+FFFD for each byte that is none */
static void json_bytes(const uint8_t *b, size_t n)
{
    putchar('"');
    for (size_t i = 0; i < n;) {
        size_t size = utf8_size(b + i, n - i);
        if (size == 0) printf("\\ufffd");
        else if (b[i] < 0x20 || b[i] == 0x7f) printf("\\u%04x", b[i]);
        else if (b[i] == '"' || b[i] == '\\') printf("\\%c", b[i]);
        else fwrite(b + i, 1, size, stdout);
        i += size ? size : 1;
    }
    putchar('"');
}
static void json_text(const char *key, const char *value)
{
    printf(",\"%s\":", key);
    json_bytes((const uint8_t *)value, strlen(value));
}
static void json_scalar(const int64_t x[5])
{
    printf("[%" PRId64 ",%" PRId64 ",%" PRId64 ",%" PRId64 ",%" PRId64 "]", x[0], x[1], x[2], x[3], x[4]);
}
static void json_decimal(const int64_t x[5]) { printf("[%.17g,%.17g]", re(x), im(x)); }
static void json_number(const int64_t x[5]) { json_bytes(words, foreituka_number_text(x, words, sizeof words)); }

/* ---- answers ---- */
/* the first line of the answer, and what stands below it without the last newline */
typedef struct {
    const uint8_t *head, *rest;
    size_t head_size, rest_size;
} lines;

static lines split(size_t bytes)
{
    const uint8_t *end = memchr(answer, '\n', bytes);
    size_t head = end ? (size_t)(end - answer) : bytes;
    lines l = {answer, answer + (head < bytes ? head + 1 : bytes), head, head + 1 < bytes ? bytes - head - 2 : 0};
    return l;
}

/* What the command knows of a refusal and the call does not. numbers: the refusal's number, the gate's index, position, line, column, gates. */
static void put_advice(const uint64_t numbers[6], const char *name, const char *between)
{
    if (numbers[0] == FOREITUKA_LIMIT)
        printf("This command takes at most %d qubits, %d classical bits, %d gates, %d measures and resets, and on 3 and 4 qubits fewer of these together (foreituka(1), LIMITS).%s", QUBITS, BITS,
               GATES, SPLITS, between);
    else if (numbers[0] == FOREITUKA_SHORT)
        printf("This command lends room for %d gates, the most that a circuit may have: make the circuit smaller.%s", GATES, between);
    else if (numbers[0] == FOREITUKA_STORE)
        printf("--store gives %zu bits: the circuit has fewer, or more than %d bits.%s", store_bytes, BITS, between);
    printf("in %s", shown_name(name));
    if (numbers[3]) printf(":%" PRIu64 ":%" PRIu64, numbers[3], numbers[4]);
}

static void json_refusal(const uint64_t numbers[6])
{
    printf(",\"number\":%" PRIu64 ",\"index\":%" PRIu64 ",\"position\":%" PRIu64 ",\"line\":%" PRIu64 ",\"column\":%" PRIu64 ",\"gates\":%" PRIu64, numbers[0],
           numbers[1], numbers[2], numbers[3], numbers[4], numbers[5]);
}

static const char *answer_name(uint32_t reply)
{
    switch (reply) {
    case FOREITUKA_SAME: return "same";
    case FOREITUKA_DIMENSIONS: return "dimensions";
    case FOREITUKA_ENTRY: return "different";
    case FOREITUKA_LEFT_REFUSED: return "left refused";
    default: return "right refused";
    }
}

/* one line for a pair of a list */
enum { ALONE, LISTED };

static int unreadable(const char *a, const char *b, const char *which, const char *fault, int form)
{
    char message[512];
    snprintf(message, sizeof message, "%s%s%s", shown_name(which), *which ? ": " : "", fault);
    if (json) {
        printf("{\"answer\":\"unreadable\",\"status\":%d", TROUBLE);
        json_text("left", a);
        json_text("right", b);
        json_text("words", message);
        printf("}\n");
    } else if (form == LISTED) printf("unreadable\t%s\t%s\t%s\n", a, b, message);
    else fprintf(stderr, "foreituka: %s\n", message);
    return TROUBLE;
}

/* Prints an answer: its words are in `answer`, and the circuits have so many classical bits. */
static int report(const char *a, const char *b, uint32_t reply, size_t bytes, const uint64_t numbers[6], const int64_t scalars[10], uint32_t bits, int form)
{
    /* only the number for "same" gives 0 */
    int status = reply == FOREITUKA_SAME ? SAME : reply == FOREITUKA_ENTRY || reply == FOREITUKA_DIMENSIONS ? DIFFERENT : TROUBLE;
    int refused = reply == FOREITUKA_LEFT_REFUSED || reply == FOREITUKA_RIGHT_REFUSED;
    if (status == TROUBLE && !refused) return unreadable(a, b, "", "the archive is another than this command was built for", form);
    lines l = split(bytes);
    if (json) {
        printf("{\"answer\":\"%s\",\"status\":%d", answer_name(reply), status);
        json_text("left", a);
        json_text("right", b);
        printf(",\"words\":");
        json_bytes(l.rest, l.rest_size);
        if (refused) json_refusal(numbers);
        if (reply == FOREITUKA_ENTRY) {
            size_t n = bits ? foreituka_store_text(numbers[0], bits, words, sizeof words) : 0;
            printf(",\"store\":");
            json_bytes(words, n);
            printf(",\"row\":%" PRIu64 ",\"column\":%" PRIu64 ",\"exact\":[", numbers[1], numbers[2]);
            json_number(scalars);
            putchar(',');
            json_number(scalars + 5);
            printf("],\"scalars\":[");
            json_scalar(scalars);
            putchar(',');
            json_scalar(scalars + 5);
            printf("],\"approximately\":[");
            json_decimal(scalars);
            putchar(',');
            json_decimal(scalars + 5);
            putchar(']');
            if (apart(scalars) >= 0) printf(",\"apart\":%.3g", apart(scalars));
        }
        printf("}\n");
        return status;
    }
    if (form == LISTED) {
        fwrite(l.head, 1, l.head_size, stdout);
        printf("\t%s\t%s", a, b);
        if (reply != FOREITUKA_SAME) putchar('\t');
        for (size_t i = 0; reply != FOREITUKA_SAME && i < l.rest_size; i++) putchar(l.rest[i] == '\n' ? ' ' : l.rest[i]);
        if (reply == FOREITUKA_ENTRY || refused) putchar(' ');
    } else fwrite(answer, 1, bytes, stdout);
    if (reply == FOREITUKA_ENTRY) {
        printf("≈ ");
        put_decimal(scalars);
        printf(" against ");
        put_decimal(scalars + 5);
        if (apart(scalars) >= 0) printf("; %.3g apart", apart(scalars));
    }
    if (refused) put_advice(numbers, reply == FOREITUKA_LEFT_REFUSED ? a : b, form == LISTED ? " " : "\n");
    if (form == LISTED || refused || reply == FOREITUKA_ENTRY) putchar('\n');
    return status;
}

static int compare(const char *a, const char *b, int form)
{
    const char *fault = read_text(a, &left);
    if (fault) return unreadable(a, b, a, fault, form);
    if ((fault = read_text(b, &right))) return unreadable(a, b, b, fault, form);
    size_t bytes;
    uint64_t numbers[6];
    int64_t scalars[10];
    uint32_t reply = foreituka_judge_texts(left.bytes, left.size, right.bytes, right.size, store, store_bytes, limits, gates, COUNT(gates), first, COUNT(first), second,
                                           COUNT(second), work, COUNT(work), answer, sizeof answer, &bytes, numbers, scalars);
    return report(a, b, reply, bytes, numbers, scalars, (uint32_t)first[1], form);
}

/* ---- many pairs ---- */
enum line_kind { NOTHING, PAIR, NO_PAIR };

static int is_blank(char c) { return c == ' ' || c == '\t' || c == '\r'; }

/* Two names, parted by blanks; where the line has a tab, by tabs alone, so that names may have spaces. An empty line and one that begins with # are nothing. */
static enum line_kind read_line(char *line, size_t n, const char **a, const char **b)
{
    while (n && is_blank(*line)) line++, n--;
    while (n && is_blank(line[n - 1])) n--;
    if (n == 0 || *line == '#') return NOTHING;
    line[n] = 0;
    char blank = memchr(line, '\t', n) ? '\t' : ' ';
    char *cut = memchr(line, blank, n);
    if (!cut || memchr(line, 0, n)) return NO_PAIR;
    *a = line;
    *b = cut;
    while (is_blank(**b)) ++*b;
    while (is_blank(cut[-1])) cut--;
    *cut = 0;
    return strchr(*b, blank) ? NO_PAIR : PAIR;
}

static double seconds(void)
{
    struct timespec now;
    clock_gettime(CLOCK_MONOTONIC, &now);
    return (double)now.tv_sec + (double)now.tv_nsec / 1e9;
}

/* ---- under an allowance: up to 32 lines at a time, which share what is left of it ---- */
enum { CIRCUIT = FOREITUKA_CIRCUIT_HEAD + 5 * GATES, UNREAD, LEFT_TEXT, RIGHT_TEXT, TAKEN };

/* a line of the list: why it is no pair of circuits, or the counts of both */
typedef struct {
    const char *a, *b;
    size_t number; /* of the line, where it has not two names; else 0 */
    int state;
    uint32_t counts[4];
} listed_pair;
static listed_pair batch[FOREITUKA_MAX_PAIRS];
static uint32_t batch_words[FOREITUKA_MAX_PAIRS * 2 * CIRCUIT];
static uint8_t batch_stores[FOREITUKA_MAX_PAIRS * 2 * BITS];
static uint64_t batch_answers[FOREITUKA_MAX_PAIRS * FOREITUKA_ANSWER_WORDS];
static int64_t batch_scalars[FOREITUKA_MAX_PAIRS * FOREITUKA_ANSWER_SCALARS];
static size_t batched, taken, word_count, byte_count;

/* Reads a circuit, its gates behind those of the batch. Answers NULL, or what is wrong with the file; `read` says whether the text is a circuit. A circuit of more than 64 bits has a store of none, and is refused for it. */
static const char *take_circuit(const char *name, size_t head, size_t at, size_t *end, int *read)
{
    uint32_t counts[2] = {0};
    size_t n = 0, position;
    const char *fault = read_text(name, &left);
    *read = !fault && foreituka_read_qasm(left.bytes, left.size, batch_words + at, 5 * GATES, counts, &n, &position) == FOREITUKA_ACCEPTED && counts[1] <= BITS && store_bytes <= counts[1];
    if (!*read) return fault;
    batch_words[head] = counts[0];
    batch_words[head + 1] = counts[1];
    batch_words[head + 2] = (uint32_t)n;
    *end = at + n;
    return NULL;
}

static void take_store(uint32_t bits)
{
    memset(batch_stores + byte_count, 0, bits);
    memcpy(batch_stores + byte_count, store, store_bytes);
    byte_count += bits;
}

/* Whether the circuit whose head is there is refused. Nothing is run: with a layer for each gate no two gates clash, and the verdict is that of circuit_channel. */
static int is_refused(size_t head, size_t at)
{
    static uint32_t ends[GATES];
    static uint8_t start[BITS];
    uint64_t index;
    const uint32_t bits = batch_words[head + 1], n = batch_words[head + 2];
    for (uint32_t i = 0; i < n / 5; i++) ends[i] = i + 1;
    memcpy(start, store, sizeof start);
    return foreituka_layered_verdict(batch_words[head], bits, start, bits, batch_words + at, n, ends, n / 5, limits, COUNT(first), COUNT(work), &index) != FOREITUKA_ACCEPTED;
}

static void take_line(listed_pair *p)
{
    const size_t head = word_count, other = head + FOREITUKA_CIRCUIT_HEAD;
    size_t end = 0;
    int read;
    p->state = UNREAD;
    if (take_circuit(p->a, head, head + 2 * FOREITUKA_CIRCUIT_HEAD, &end, &read)) return;
    p->state = LEFT_TEXT;
    if (!read) {
        if (read_text(p->b, &right)) p->state = UNREAD;
        return;
    }
    const size_t middle = end;
    p->state = UNREAD;
    if (take_circuit(p->b, other, middle, &end, &read)) return;
    if (!read) {
        p->state = is_refused(head, head + 2 * FOREITUKA_CIRCUIT_HEAD) ? LEFT_TEXT : RIGHT_TEXT;
        return;
    }
    p->state = TAKEN;
    p->counts[0] = batch_words[head], p->counts[1] = batch_words[head + 1], p->counts[2] = batch_words[other], p->counts[3] = batch_words[other + 1];
    word_count = end;
    take_store(p->counts[1]);
    take_store(p->counts[3]);
    taken++;
}

/* The refusal of one text, which costs nothing: its words, with the side in front. */
static int report_refusal(const listed_pair *p, uint32_t reply)
{
    static const char *const sides[2] = {"left ", "right "};
    const char *name = reply == FOREITUKA_LEFT_REFUSED ? p->a : p->b, *side = sides[reply == FOREITUKA_RIGHT_REFUSED];
    const char *fault = read_text(name, &left);
    if (fault) return unreadable(p->a, p->b, name, fault, LISTED);
    size_t bytes = 0, n = strlen(side);
    uint64_t numbers[6];
    int64_t none[10] = {0};
    uint32_t number = foreituka_text_channel(left.bytes, left.size, store, store_bytes, limits, gates, COUNT(gates), first, COUNT(first), work, COUNT(work), answer, FOREITUKA_ANSWER_BYTES, &bytes, numbers);
    if (number == FOREITUKA_ACCEPTED) return unreadable(p->a, p->b, name, "the file has changed", LISTED);
    memmove(answer + n, answer, bytes);
    memcpy(answer, side, n);
    return report(p->a, p->b, reply, bytes + n, numbers, none, 0, LISTED);
}

/* The answer of a pair that was compared, in the words of judge_texts. */
static int report_compared(const listed_pair *p, uint32_t reply, const uint64_t *found, const int64_t *scalars)
{
    const uint64_t numbers[6] = {found[2], found[3], found[4]};
    char *out = (char *)answer;
    int n = 0;
    if (reply == FOREITUKA_SAME) n = snprintf(out, sizeof answer, "same\nThe two circuits do the same: their channels are equal at every store, row and column.\n");
    else if (reply == FOREITUKA_DIMENSIONS)
        n = snprintf(out, sizeof answer, "dimensions\nqubits: %" PRIu32 " against %" PRIu32 "; classical bits: %" PRIu32 " against %" PRIu32 "\n", p->counts[0], p->counts[2], p->counts[1], p->counts[3]);
    else if (reply == FOREITUKA_ENTRY) {
        uint8_t part[4][256];
        int size[4] = {(int)foreituka_store_text(numbers[0], p->counts[1], part[0], sizeof part[0]), (int)foreituka_entry_text(p->counts[0], numbers[1], numbers[2], part[1], sizeof part[1]),
                       (int)foreituka_number_text(scalars, part[2], sizeof part[2]), (int)foreituka_number_text(scalars + 5, part[3], sizeof part[3])};
        n = snprintf(out, sizeof answer, "different\n%s%.*s%s%.*s: %.*s against %.*s\n", p->counts[1] ? "after storing " : "", p->counts[1] ? size[0] : 0, (char *)part[0], p->counts[1] ? ", " : "", size[1],
                     (char *)part[1], size[2], (char *)part[2], size[3], (char *)part[3]);
    }
    return report(p->a, p->b, reply, (size_t)n, numbers, scalars, p->counts[1], LISTED);
}

static int report_passed_over(const listed_pair *p, uint64_t cost)
{
    if (json) {
        printf("{\"answer\":\"passed over\",\"status\":%d", TROUBLE);
        json_text("left", p->a);
        json_text("right", p->b);
        printf(",\"cost\":%" PRIu64 "}\n", cost);
    } else printf("passed over\t%s\t%s\tit would cost %" PRIu64 " terms, more than is left of the allowance\n", p->a, p->b, cost);
    return TROUBLE;
}

static int report_no_pair(size_t number)
{
    char where[96];
    snprintf(where, sizeof where, "line %zu of the list has not two names of files", number);
    return unreadable("", "", "", where, LISTED);
}

static int report_unread(const listed_pair *p)
{
    const char *fault = read_text(p->a, &left);
    if (fault) return unreadable(p->a, p->b, p->a, fault, LISTED);
    fault = read_text(p->b, &left);
    return unreadable(p->a, p->b, p->b, fault ? fault : "the file has changed", LISTED);
}

/* Serves the batch, and takes what it costs from the allowance. Counts the statuses of its lines. */
static int serve_batch(uint64_t *allowance, size_t count[3])
{
    uint64_t total, index;
    uint32_t verdict = foreituka_compare_list(taken, batch_words, word_count, batch_stores, byte_count, limits, *allowance, first, COUNT(first), second, COUNT(second), work, COUNT(work),
                                              batch_answers, COUNT(batch_answers), batch_scalars, COUNT(batch_scalars), &total, &index);
    const uint64_t *found = batch_answers;
    const int64_t *scalars = batch_scalars;
    int worst = SAME;
    for (size_t i = 0; i < batched; i++) {
        const listed_pair *p = batch + i;
        int status;
        if (p->number) status = report_no_pair(p->number);
        else if (p->state == UNREAD) status = report_unread(p);
        else if (p->state != TAKEN) status = report_refusal(p, p->state == LEFT_TEXT ? FOREITUKA_LEFT_REFUSED : FOREITUKA_RIGHT_REFUSED);
        else {
            uint32_t reply = verdict == FOREITUKA_ACCEPTED ? (uint32_t)found[0] : verdict;
            if (reply == FOREITUKA_LEFT_REFUSED || reply == FOREITUKA_RIGHT_REFUSED) status = report_refusal(p, reply);
            else if (reply == FOREITUKA_PASSED_OVER) status = report_passed_over(p, found[1]);
            else status = report_compared(p, reply, found, scalars);
            found += FOREITUKA_ANSWER_WORDS, scalars += FOREITUKA_ANSWER_SCALARS;
        }
        count[status]++;
        if (status > worst) worst = status;
    }
    *allowance -= verdict == FOREITUKA_ACCEPTED ? total : 0;
    batched = taken = word_count = byte_count = 0;
    fflush(stdout);
    return worst;
}

/* one line more; the batch is served where it is full */
static int batch_line(const char *a, const char *b, size_t number, uint64_t *allowance, size_t count[3])
{
    listed_pair *p = batch + batched++;
    *p = (listed_pair){a, b, number, UNREAD, {0}};
    if (!number) take_line(p);
    return batched == FOREITUKA_MAX_PAIRS ? serve_batch(allowance, count) : SAME;
}

static int compare_list(const char *name, uint64_t *allowance)
{
    const char *fault = read_text(name, &pairs), *a = "", *b = "";
    if (fault) {
        fprintf(stderr, "foreituka: %s: %s\n", shown_name(name), fault);
        return TROUBLE;
    }
    size_t all = 0, done = 0, count[3] = {0}, number = 0;
    const int terminal = isatty(STDERR_FILENO), both = terminal && isatty(STDOUT_FILENO);
    const double began = seconds();
    double told = began;
    int worst = SAME;
    for (size_t at = 0, fresh = 1; at < pairs.size; at++) {
        const char c = (char)pairs.bytes[at];
        if (fresh && !is_blank(c) && c != '\n') all += c != '#', fresh = 0;
        if (c == '\n') fresh = 1;
    }
    setvbuf(stdout, NULL, _IOFBF, 1 << 16); /* a line of answer goes out whole, once the line of progress is off the screen */
    for (size_t at = 0, next; at < pairs.size && !ferror(stdout); at = next) {
        const uint8_t *end = memchr(pairs.bytes + at, '\n', pairs.size - at);
        size_t n = end ? (size_t)(end - pairs.bytes) - at : pairs.size - at;
        enum line_kind kind = read_line((char *)pairs.bytes + at, n, &a, &b);
        next = at + n + 1;
        number++;
        if (kind == NOTHING) continue;
        if (terminal && (done == 0 || seconds() - told > 0.1)) {
            told = seconds();
            fprintf(stderr, "\r\033[K%zu of %zu pairs judged, %.0f s", done, all, told - began);
        }
        const int is_pair = kind == PAIR && strcmp(a, "-") && strcmp(b, "-");
        int status;
        done++;
        if (allowance) status = batch_line(a, b, is_pair ? 0 : number, allowance, count);
        else {
            status = is_pair ? compare(a, b, LISTED) : report_no_pair(number);
            count[status]++;
        }
        if (status > worst) worst = status;
        if (both) fputs("\r\033[K", stderr);
        fflush(stdout);
    }
    if (batched) {
        int status = serve_batch(allowance, count);
        if (status > worst) worst = status;
    }
    if (terminal) fprintf(stderr, "\r\033[K%zu pairs in %.1f s: %zu same, %zu different, %zu %srefused or unreadable\n", done, seconds() - began, count[SAME], count[DIFFERENT], count[TROUBLE], allowance ? "passed over, " : "");
    return worst;
}

/* ---- one circuit ---- */
/* a basis state of so many rows, qubit 0 first */
static void put_bits(size_t dim, size_t row)
{
    for (size_t bit = dim / 2; bit; bit /= 2) putchar(row & bit ? '1' : '0');
}

static void put_ket_bra(size_t dim, size_t a, size_t b)
{
    putchar('|');
    put_bits(dim, a);
    printf("⟩⟨");
    put_bits(dim, b);
    putchar('|');
}

/* exact, and as a decimal value, which is rounded last */
static void put_number(const int64_t x[5])
{
    fwrite(words, 1, foreituka_number_text(x, words, sizeof words), stdout);
    printf(" ≈ ");
    put_decimal(x);
    putchar('\n');
}

/* the store of the record at `at` in bits; how many bytes, 0 where there are no classical bits */
static int store_of(const int64_t *channel, int64_t at, uint8_t stored[BITS + 1])
{
    uint64_t value = (uint64_t)channel[at + 1] | (uint64_t)channel[at + 2] << 32;
    return channel[1] ? (int)foreituka_store_text(value, (uint32_t)channel[1], stored, BITS + 1) : 0;
}

/* entry i of the record at `at` as a scalar: its numerators over the exponent of the record, in lowest form */
static void entry_of(const int64_t *channel, int64_t at, size_t i, int64_t x[5])
{
    memcpy(x, channel + at + FOREITUKA_RECORD_HEAD + FOREITUKA_ENTRY_WORDS * i, FOREITUKA_ENTRY_WORDS * sizeof *x);
    x[4] = channel[at + FOREITUKA_EXPONENT_PLACE];
    while (x[4] > 0 && !((x[0] | x[1] | x[2] | x[3]) & 1)) {
        for (int j = 0; j < FOREITUKA_ENTRY_WORDS; j++) x[j] /= 2;
        x[4]--;
    }
}

/* Prints the records of a channel, or of its effects: a channel's entry (row, column), an effect's term |row⟩⟨column|. The effects are the
 * textbook's, of which tr(E ρ) is the store's probability. */
static void put_records(const int64_t *channel, int is_effects, const char *name)
{
    const size_t dim = (size_t)channel[0], side = is_effects ? dim : dim * dim;
    const uint32_t bits = (uint32_t)channel[1];
    const char *kind = is_effects ? "effects" : "channel", *comma = "";
    uint32_t qubits = 0;
    while ((size_t)1 << qubits < dim) qubits++;
    if (json) {
        printf("{\"answer\":\"%s\",\"status\":0", kind);
        json_text("file", name);
        printf(",\"qubits\":%" PRIu32 ",\"bits\":%" PRIu32 ",\"blocks\":[", qubits, bits);
    } else printf("%s %" PRIu32 " %" PRIu32 " %" PRId64 "\nqubits: %" PRIu32 "; classical bits: %" PRIu32 "; stores that can be left: %" PRId64 "\n", kind, qubits, bits, channel[2], qubits, bits, channel[2]);
    for (int64_t at = channel[3]; at; at = channel[at]) {
        uint8_t stored[BITS + 1];
        int n = store_of(channel, at, stored);
        if (json) printf("%s\n{\"store\":\"%.*s\",\"entries\":[", comma, n, (const char *)stored);
        comma = "";
        for (size_t i = 0; i < side * side; i++) {
            size_t row = i / side, column = i % side;
            int64_t x[5];
            entry_of(channel, at, i, x);
            if (!x[0] && !x[1] && !x[2] && !x[3]) continue;
            if (json) {
                printf("%s\n{\"row\":%zu,\"column\":%zu,\"exact\":", comma, row, column);
                json_number(x);
                printf(",\"scalar\":");
                json_scalar(x);
                printf(",\"approximately\":");
                json_decimal(x);
                putchar('}');
                comma = ",";
                continue;
            }
            if (n) printf("%s %.*s, ", is_effects ? "to store" : "after storing", n, (const char *)stored);
            if (is_effects) put_ket_bra(dim, row, column);
            else fwrite(words, 1, foreituka_entry_text(qubits, row, column, words, sizeof words), stdout);
            printf(": ");
            put_number(x);
        }
        if (json) printf("]}");
        comma = ",";
    }
    if (json) putchar(']');
}

/* Prints how likely each store is for each basis state as input, the diagonal of its effect, and their sum, added up exactly. The whole sum is 1 (`OfCircuits`
 * of demands/specs/Probabilities.antt). Of the sums on the way to it no theorem speaks: one that left the range would be refused with 9, and the answer is then 0. */
static int put_odds(void)
{
    const size_t dim = (size_t)effects[0];
    const char *comma = "";
    if (json) printf(",\"odds\":[");
    for (size_t input = 0; input < dim; input++) {
        int64_t total[5];
        foreituka_scalar_zero(total);
        if (json) {
            printf("%s\n{\"input\":\"", comma);
            put_bits(dim, input);
            printf("\",\"stores\":[");
        }
        comma = "";
        for (int64_t at = effects[3]; at; at = effects[at]) {
            int64_t x[5], sum[5];
            uint8_t stored[BITS + 1];
            int n = store_of(effects, at, stored);
            entry_of(effects, at, input * dim + input, x);
            if (foreituka_scalar_add(total, x, sum) != FOREITUKA_ACCEPTED) return 0;
            memcpy(total, sum, sizeof total);
            if (json) {
                printf("%s{\"store\":\"%.*s\",\"exact\":", comma, n, (const char *)stored);
                json_number(x);
                printf(",\"approximately\":%.17g}", re(x));
                comma = ",";
                continue;
            }
            printf("from |");
            put_bits(dim, input);
            printf("⟩");
            if (n) printf(" to store %.*s", n, (const char *)stored);
            printf(": ");
            put_number(x);
        }
        if (json) {
            printf("],\"total\":");
            json_number(total);
            putchar('}');
        } else {
            printf("from |");
            put_bits(dim, input);
            printf("⟩ in all: ");
            fwrite(words, 1, foreituka_number_text(total, words, sizeof words), stdout);
            putchar('\n');
        }
        comma = ",";
    }
    if (json) putchar(']');
    return 1;
}

static int one_circuit(const char *name, int is_effects)
{
    const char *fault = read_text(name, &left);
    size_t bytes = 0;
    uint64_t numbers[6];
    if (fault) {
        fprintf(stderr, "foreituka: %s: %s\n", shown_name(name), fault);
        return TROUBLE;
    }
    uint32_t reply = foreituka_text_channel(left.bytes, left.size, store, store_bytes, limits, gates, COUNT(gates), first, COUNT(first), work, COUNT(work), answer, sizeof answer,
                                            &bytes, numbers);
    if (reply != FOREITUKA_ACCEPTED) {
        lines l = split(bytes);
        if (json) {
            printf("{\"answer\":\"refused\",\"status\":%d", TROUBLE);
            json_text("file", name);
            printf(",\"words\":");
            json_bytes(l.rest, l.rest_size);
            json_refusal(numbers);
            printf("}\n");
        } else {
            fwrite(answer, 1, bytes, stdout);
            put_advice(numbers, name, "\n");
            putchar('\n');
        }
        return TROUBLE;
    }
    if (is_effects && foreituka_povm_effects(first, COUNT(first), effects, COUNT(effects)) != FOREITUKA_ACCEPTED) {
        fprintf(stderr, "foreituka: %s: its effects have a number that is too large\n", shown_name(name));
        return TROUBLE;
    }
    put_records(is_effects ? effects : first, is_effects, name);
    if (is_effects && !put_odds()) {
        fprintf(stderr, "foreituka: %s: its odds have a sum that is too large\n", shown_name(name));
        return TROUBLE;
    }
    if (json) printf("}\n");
    return SAME;
}

static int list(const char *name)
{
    static const char refused[] = "refused";
    const char *fault = read_text(name, &left);
    if (fault) {
        fprintf(stderr, "foreituka: %s: %s\n", shown_name(name), fault);
        return TROUBLE;
    }
    size_t n = foreituka_list(left.bytes, left.size, first, FOREITUKA_LIST_WORDS, work, FOREITUKA_LIST_WORK_WORDS, page, sizeof page);
    fwrite(page, 1, n, stdout);
    return n >= sizeof refused && !memcmp(page, refused, sizeof refused - 1) ? TROUBLE : SAME;
}

/* ---- arguments ---- */
static int read_store(const char *bits)
{
    store_bytes = strlen(bits);
    if (store_bytes > BITS || strspn(bits, "01") != store_bytes) return wrong("--store wants up to 64 bits, as 010, and not", bits);
    for (size_t i = 0; i < store_bytes; i++) store[i] = (uint8_t)(bits[i] - '0');
    return 0;
}

static int read_allowance(const char *digits, uint64_t *n)
{
    size_t size = strlen(digits);
    errno = 0;
    *n = strtoull(digits, NULL, 10);
    return size == 0 || strspn(digits, "0123456789") != size || errno ? wrong("--allowance wants a number of terms below 2^64, and not", digits) : 0;
}

static int run(int count, char **given)
{
    const char *verb = count > 1 ? given[1] : "", *files[2] = {"-", "-"}, *listed = NULL;
    uint64_t allowance, *bound = NULL;
    int named = 0, options = 1;
    for (int i = 1; i < count; i++) {
        if (!strcmp(given[i], "--")) break;
        if (!strcmp(given[i], "--help") || !strcmp(given[i], "-h")) return fputs(usage, stdout), SAME;
        if (!strcmp(given[i], "--version")) return printf("foreituka %s\n", FOREITUKA_VERSION), SAME;
    }
    int compares = !strcmp(verb, "compare"), lists = !strcmp(verb, "list"), is_effects = !strcmp(verb, "effects");
    if (!*verb) return wrong("nothing to do", "");
    if (!compares && !lists && !is_effects && strcmp(verb, "channel")) return wrong("no such command", verb);
    for (int i = 2; i < count; i++) {
        const char *a = given[i];
        if (options && !strcmp(a, "--")) options = 0;
        else if (options && !lists && !strcmp(a, "--json")) json = 1;
        else if (options && !lists && !strncmp(a, "--store=", 8)) {
            if (read_store(a + 8)) return TROUBLE;
        } else if (options && ((!lists && !strcmp(a, "--store")) || (compares && (!strcmp(a, "--list") || !strcmp(a, "--allowance"))))) {
            if (++i == count) return wrong("nothing stands behind", a);
            if (!strcmp(a, "--list")) listed = given[i];
            else if (!strcmp(a, "--allowance")) {
                if (read_allowance(given[i], bound = &allowance)) return TROUBLE;
            }
            else if (read_store(given[i])) return TROUBLE;
        } else if (options && a[0] == '-' && a[1]) return wrong("no such option here", a);
        else if (named == (compares ? 2 : 1)) return wrong("one file too many", a);
        else files[named++] = a;
    }
    if (listed) return named ? wrong("beside --list no file is named", files[0]) : compare_list(listed, bound);
    if (bound) return wrong("--allowance is for a list of pairs", "");
    if (compares) {
        if (named < 2) return wrong("compare wants two files", "");
        if (!strcmp(files[0], "-") && !strcmp(files[1], "-")) return wrong("standard input can be one of the two files, not both", "");
        return compare(files[0], files[1], ALONE);
    }
    if (lists) return list(files[0]);
    return named ? one_circuit(files[0], is_effects) : wrong("no file is named; - is standard input", verb);
}

int main(int count, char **given)
{
    int status = run(count, given);
    int lost = ferror(stdout);
    if (fclose(stdout) || lost) {
        fprintf(stderr, "foreituka: standard output could not be written whole: is the disk full?\n");
        return TROUBLE;
    }
    return status;
}

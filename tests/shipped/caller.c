/* Calls the library as a firmware engineer would, with nothing but docs/styrmflo.h, so that the tests can try archive and header: a request on standard input,
   what came of it on standard output, one after the other, all numbers as they lie in memory, lowest byte first. tests/src/shipped.rs asks; tests/shipped.sh builds it with the
   shipped archive, tests/targets.sh with the library for another target. */
#include "styrmflo.h"

/* The two functions of the C library that it needs; its headers aren't there for every processor. Where the library itself isn't, bare.c has them. */
long read(int file, void *to, unsigned long count);
long write(int file, const void *from, unsigned long count);

enum { HEADER, CHECK, TYPE_CHECK, BENCH, DISPLAY, READ, WRITE, TEXT, VERSION };

/* What is asked, and how many elements of each slice are lent. `bytes` are the message's or the text's. */
struct request {
    uint32_t asked, words, literals, bytes, work, answer, budget, tag, payload;
};

enum { MOST = 1 << 18 };
static uint16_t words[MOST];
static uint8_t literals[MOST], bytes[MOST];
static uint32_t work[MOST], twelve[MOST];
static uint64_t four[MOST];

/* What the header states, in the order of tests/src/shipped.rs. */
static const uint64_t stated[] = {
    STYRMFLO_WORK_WORDS, STYRMFLO_VERSION, STYRMFLO_MOST_RULES, STYRMFLO_MOST_NODES, STYRMFLO_MOST_WORDS, STYRMFLO_MOST_LITERALS, STYRMFLO_MOST_MESSAGE,
    STYRMFLO_MOST_LISTING, STYRMFLO_RECORD_WORDS, STYRMFLO_ANSWER_WORDS, STYRMFLO_VALUES,
    STYRMFLO_DONE, STYRMFLO_SIZE, STYRMFLO_FIELD, STYRMFLO_USE, STYRMFLO_START, STYRMFLO_TYPE, STYRMFLO_LONG, STYRMFLO_WORK, STYRMFLO_NOMATCH, STYRMFLO_BUDGET,
    STYRMFLO_DEEP, STYRMFLO_STUCK, STYRMFLO_FAULT, STYRMFLO_LINE, STYRMFLO_ROOM, STYRMFLO_OUT,
    STYRMFLO_NUMBER, STYRMFLO_PLACE, STYRMFLO_CONSUMED, STYRMFLO_VISITS, STYRMFLO_TAG(0), STYRMFLO_PAYLOAD(0), STYRMFLO_TAG(3), STYRMFLO_PAYLOAD(3),
    STYRMFLO_ABSENT, STYRMFLO_BOOL, STYRMFLO_INTEGER, STYRMFLO_TEXT_IN_MESSAGE, STYRMFLO_TEXT_IN_LITERALS,
    STYRMFLO_READ_NUMBER, STYRMFLO_READ_LINE, STYRMFLO_READ_WORDS, STYRMFLO_READ_LITERALS,
    STYRMFLO_WRITE_NUMBER, STYRMFLO_WRITE_PLACE, STYRMFLO_WRITE_BYTES, STYRMFLO_WRITE_SPARE,
};

/* "A slice of no elements may have any pointer, NULL too": here it always is NULL. */
#define LENT(slice, count) ((count) > 0 ? (slice) : 0)

static int take(void *to, unsigned long count)
{
    uint8_t *next = to;
    while (count > 0) {
        long came = read(0, next, count);
        if (came <= 0)
            return 0;
        next += came;
        count -= (unsigned long)came;
    }
    return 1;
}

static int give(const void *from, unsigned long count)
{
    const uint8_t *next = from;
    while (count > 0) {
        long went = write(1, next, count);
        if (went <= 0)
            return 0;
        next += went;
        count -= (unsigned long)went;
    }
    return 1;
}

static int give_word(uint64_t word)
{
    return give(&word, sizeof word);
}

static int run(const struct request *r)
{
    if (!take(work, 4ul * r->work) || !take(twelve, 4ul * r->answer))
        return 0;
    (r->asked == BENCH ? styrmflo_bench : styrmflo_display)(LENT(words, r->words), r->words, LENT(literals, r->literals), r->literals, LENT(bytes, r->bytes), r->bytes,
                                                            r->budget, LENT(work, r->work), r->work, LENT(twelve, r->answer), r->answer);
    return give(work, 4ul * r->work) && give(twelve, 4ul * r->answer);
}

static int listing(const struct request *r)
{
    if (!take(four, 8ul * r->answer))
        return 0;
    if (r->asked == READ) {
        styrmflo_read(LENT(bytes, r->bytes), r->bytes, LENT(words, r->words), r->words, LENT(literals, r->literals), r->literals, LENT(four, r->answer), r->answer);
        return give(words, 2ul * r->words) && give(literals, r->literals) && give(four, 8ul * r->answer);
    }
    styrmflo_write(LENT(words, r->words), r->words, LENT(literals, r->literals), r->literals, LENT(bytes, r->bytes), r->bytes, LENT(four, r->answer), r->answer);
    return give(bytes, r->bytes) && give(four, 8ul * r->answer);
}

static int answer(const struct request *r)
{
    switch (r->asked) {
    case HEADER:
        return give_word(sizeof stated / sizeof *stated) && give(stated, sizeof stated);
    case VERSION:
        return give_word(styrmflo_version());
    case CHECK:
        return give_word(styrmflo_check(LENT(words, r->words), r->words, LENT(literals, r->literals), r->literals));
    case TYPE_CHECK:
        return give_word(styrmflo_type_check(LENT(words, r->words), r->words, LENT(literals, r->literals), r->literals));
    case BENCH:
    case DISPLAY:
        return run(r);
    case READ:
    case WRITE:
        return listing(r);
    case TEXT:
        return give_word(styrmflo_text(r->bytes, r->literals, r->tag, r->payload));
    default:
        return 0;
    }
}

/* Ends with 0 where no further request comes, and with 1 where one can't be answered. */
int main(void)
{
    struct request r;
    while (take(&r, sizeof r)) {
        int lends = r.asked != TEXT;
        if (lends && (r.words > MOST || r.literals > MOST || r.bytes > MOST || r.work > MOST || r.answer > MOST))
            return 1;
        if (lends && !(take(words, 2ul * r.words) && take(literals, r.literals) && take(bytes, r.bytes)))
            return 1;
        if (!answer(&r))
            return 1;
    }
    return 0;
}

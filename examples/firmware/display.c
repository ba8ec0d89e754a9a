/* display LISTING MESSAGE [BUDGET]: all that firmware does with a table and a message, to begin with and to copy from. display.rs is the same in Rust.
   LISTING is a file that holds a listing; MESSAGE is lower-case hex pairs, or @FILE for the bytes of a file; BUDGET is how many visits the run may make, 100000 if it
   isn't given. Prints the answer in words, and the values. Ends with 0 if the answer is DONE and is shown, with 1 if not, and with 2 if nothing could be run or written. */
#include <inttypes.h>
#include <stdio.h>
#include <string.h>

#include "styrmflo.h"

/* What is lent to the reader: of the greatest sizes, so that no table and no message is too large. Listing and message have a byte more, by which the reader sees that
   a longer one is too long: what comes behind that byte changes nothing in its answer. A product knows its table and its messages and can lend less, but for `work`. */
static uint8_t listing[STYRMFLO_MOST_LISTING + 1];
static uint16_t words[STYRMFLO_MOST_WORDS];
static uint8_t literals[STYRMFLO_MOST_LITERALS];
static uint8_t message[STYRMFLO_MOST_MESSAGE + 1];
static uint32_t work[STYRMFLO_WORK_WORDS];
static uint32_t record[STYRMFLO_RECORD_WORDS];

/* How many elements of them are in use. */
static uint64_t words_count, literals_count, message_count;

/* What firmware does with an answer. A display shows nothing rather than a guess: values are shown for DONE alone. */
enum action { SHOW, IGNORE, LOG, REFUSE };

struct meaning {
    const char *name, *text;
    enum action action;
};

static struct meaning means(const char *name, const char *text, enum action action)
{
    const struct meaning meaning = { name, text, action };
    return meaning;
}

/* What an answer's number means. The switch has a case for each number of the header and no default, so that the compiler tells one that was forgotten (-Wswitch, in
   -Wall). A number that has no row ends behind the switch. An enum may be a single byte (-fshort-enums, which some compilers take by themselves), and 256 would become
   DONE there: so the number is compared with what the enum keeps of it. After a passed check no run answers SIZE to TYPE, nor STUCK, and with these sizes WORK and ROOM
   don't come: firmware handles them all the same, since memory can fail. */
static struct meaning meaning_of(uint64_t number)
{
    const enum styrmflo_number known = (enum styrmflo_number)number;
    if ((uint64_t)known == number)
        switch (known) {
        case STYRMFLO_DONE: return means("DONE", "the message matches", SHOW);
        case STYRMFLO_SIZE: return means("SIZE", "counts and lengths of the table don't fit together", REFUSE);
        case STYRMFLO_FIELD: return means("FIELD", "this word of the table breaks the rules for its record", REFUSE);
        case STYRMFLO_USE: return means("USE", "this node is not used exactly once", REFUSE);
        case STYRMFLO_START: return means("START", "rule 0 inherits something", REFUSE);
        case STYRMFLO_TYPE: return means("TYPE", "this rule breaks the type rules", REFUSE);
        case STYRMFLO_LONG: return means("LONG", "the message is over 65535 bytes", LOG);
        case STYRMFLO_WORK: return means("WORK", "the work area is too short", LOG);
        case STYRMFLO_NOMATCH: return means("NOMATCH", "the message is none of this table's", IGNORE);
        case STYRMFLO_BUDGET: return means("BUDGET", "no visit was left at this node", LOG);
        case STYRMFLO_DEEP: return means("DEEP", "a visit of this node was due at depth 257", LOG);
        case STYRMFLO_STUCK: return means("STUCK", "this node came to a name with no value, or to a wrong type", LOG);
        case STYRMFLO_FAULT: return means("FAULT", "32-bit overflow or a zero divisor at this node", LOG);
        case STYRMFLO_LINE: return means("LINE", "this line of the listing is wrong or missing", REFUSE);
        case STYRMFLO_ROOM: return means("ROOM", "the slices for words and literals are too short", LOG);
        case STYRMFLO_OUT: return means("OUT", "the slice for the text is too short", LOG);
        }
    return means("(no row)", "header and archive don't belong together, or memory failed", REFUSE);
}

/* The answer in words, and what is done with it. */
static enum action say_answer(uint64_t number, uint64_t place)
{
    const struct meaning meaning = meaning_of(number);
    printf("answer %" PRIu64 " %s, place %" PRIu64 ": %s\n", number, meaning.name, place, meaning.text);
    switch (meaning.action) {
    case SHOW: break;
    case IGNORE: printf("nothing is shown: the message is ignored\n"); break;
    case LOG: printf("nothing is shown: number and place go to the log\n"); break;
    case REFUSE: printf("nothing is shown: number and place go to the log, and no message is given to this table\n"); break;
    }
    return meaning.action;
}

/* Whether a value is one that this program can show: a tag of the header, and a Bool that is 0 or 1. Again without a default, and with a look at what the enum keeps. */
static int has_row(uint32_t tag, uint32_t payload)
{
    const enum styrmflo_tag known = (enum styrmflo_tag)tag;
    if ((uint32_t)known == tag)
        switch (known) {
        case STYRMFLO_BOOL: return payload <= 1;
        case STYRMFLO_ABSENT:
        case STYRMFLO_INTEGER:
        case STYRMFLO_TEXT_IN_MESSAGE:
        case STYRMFLO_TEXT_IN_LITERALS: return 1;
        }
    return 0;
}

/* The 32-bit two's complement number. */
static int32_t integer_of(uint32_t payload)
{
    return payload <= INT32_MAX ? (int32_t)payload : -(int32_t)(UINT32_MAX - payload) - 1;
}

/* A Text in words. Its bytes are never copied: styrmflo_text says where they stand in the message or in the literals, and `bytes` points there. So both must stay as they
   are until the display has shown them. For a part that doesn't fit it says: empty, at the start of the message. */
static void say_text(uint32_t tag, uint32_t payload)
{
    const uint64_t place = styrmflo_text(message_count, literals_count, tag, payload);
    const uint32_t start = (uint32_t)(place >> 16 & 0xffff), length = (uint32_t)(place & 0xffff);
    const int literal = (place >> 32 & 1) != 0;
    const uint8_t *bytes = (literal ? literals : message) + start;
    printf("Text \"");
    for (uint32_t i = 0; i < length; i++) {
        if (bytes[i] >= 0x20 && bytes[i] <= 0x7e && bytes[i] != '"' && bytes[i] != '\\')
            printf("%c", bytes[i]);
        else
            printf("\\x%02x", bytes[i]);
    }
    printf("\", in the %s from byte %" PRIu32 "\n", literal ? "literals" : "message", start);
}

/* The four values in words. Where one of them has no row nothing is shown, not even the others: what came is not what this program was written for. */
static int say_values(const uint32_t *of)
{
    for (int i = 0; i < STYRMFLO_VALUES; i++)
        if (!has_row(of[STYRMFLO_TAG(i)], of[STYRMFLO_PAYLOAD(i)])) {
            printf("nothing is shown: value %d has tag %" PRIu32 " and payload %" PRIu32 ", for which there is no row; both go to the log\n", i, of[STYRMFLO_TAG(i)],
                   of[STYRMFLO_PAYLOAD(i)]);
            return 0;
        }
    for (int i = 0; i < STYRMFLO_VALUES; i++) {
        const uint32_t payload = of[STYRMFLO_PAYLOAD(i)];
        printf("value %d: ", i);
        switch ((enum styrmflo_tag)of[STYRMFLO_TAG(i)]) {
        case STYRMFLO_ABSENT: printf("absent\n"); break;
        case STYRMFLO_BOOL: printf("Bool %s\n", payload ? "true" : "false"); break;
        case STYRMFLO_INTEGER: printf("Integer %" PRId32 "\n", integer_of(payload)); break;
        case STYRMFLO_TEXT_IN_MESSAGE:
        case STYRMFLO_TEXT_IN_LITERALS: say_text(of[STYRMFLO_TAG(i)], payload); break;
        }
    }
    return 1;
}

/* At most `most` bytes of a file. */
static int take_file(const char *path, uint8_t *to, size_t most, uint64_t *count)
{
    FILE *file = fopen(path, "rb");
    int whole = 0;
    if (file != NULL) {
        *count = fread(to, 1, most, file);
        whole = !ferror(file);
        whole = fclose(file) == 0 && whole;
    }
    if (!whole)
        fprintf(stderr, "display: cannot read %s\n", path);
    return whole;
}

static int digit_of(char c)
{
    return c >= '0' && c <= '9' ? c - '0' : c >= 'a' && c <= 'f' ? c - 'a' + 10 : -1;
}

/* The message: a file's bytes, or hex pairs. Here it comes from the command line; in a lift it is what the controller sent. */
static int take_message(const char *text)
{
    if (text[0] == '@')
        return take_file(text + 1, message, sizeof message, &message_count);
    for (message_count = 0; text[0] != '\0'; text += 2) {
        const int high = digit_of(text[0]), low = high < 0 ? -1 : digit_of(text[1]);
        if (low < 0) {
            fprintf(stderr, "display: the message is lower-case hex pairs, or @FILE\n");
            return 0;
        }
        if (message_count < sizeof message)
            message[message_count++] = (uint8_t)(16 * high + low);
    }
    return 1;
}

/* A decimal up to 4294967295, without a leading zero. */
static int take_budget(const char *text, uint32_t *budget)
{
    uint64_t number = 0;
    size_t i = 0;
    for (; i < 10 && text[i] >= '0' && text[i] <= '9'; i++)
        number = 10 * number + (uint64_t)(text[i] - '0');
    if (i == 0 || text[i] != '\0' || (i > 1 && text[0] == '0') || number > UINT32_MAX) {
        fprintf(stderr, "display: the budget is a decimal from 0 to 4294967295, without a leading zero\n");
        return 0;
    }
    *budget = (uint32_t)number;
    return 1;
}

/* A listing becomes the table, and is type-checked once. This is what is done when a table is fitted; a table that is fitted when firmware is built is in fitted.c. */
static int fit(uint64_t listing_count)
{
    uint64_t answer[STYRMFLO_ANSWER_WORDS];
    uint32_t verdict;
    styrmflo_read(listing, listing_count, words, STYRMFLO_MOST_WORDS, literals, STYRMFLO_MOST_LITERALS, answer, STYRMFLO_ANSWER_WORDS);
    if (answer[STYRMFLO_READ_NUMBER] != STYRMFLO_DONE) {
        say_answer(answer[STYRMFLO_READ_NUMBER], answer[STYRMFLO_READ_LINE]);
        return 0;
    }
    words_count = answer[STYRMFLO_READ_WORDS];
    literals_count = answer[STYRMFLO_READ_LITERALS];
    verdict = styrmflo_type_check(words, words_count, literals, literals_count);
    if (verdict != 0) {
        say_answer(verdict >> 16, verdict & 0xffff);
        return 0;
    }
    printf("table of %" PRIu64 " words and %" PRIu64 " literal bytes: passes the type check\n", words_count, literals_count);
    return 1;
}

/* The table's answer to the message. DONE may leave a rest of the message; whether that is a mistake, the maker's protocol says: here it is told. */
static int show(uint32_t budget)
{
    styrmflo_display(words, words_count, literals, literals_count, message, message_count, budget, work, STYRMFLO_WORK_WORDS, record, STYRMFLO_RECORD_WORDS);
    if (say_answer(record[STYRMFLO_NUMBER], record[STYRMFLO_PLACE]) != SHOW) {
        printf("visits %" PRIu32 "\n", record[STYRMFLO_VISITS]);
        return 0;
    }
    printf("visits %" PRIu32 ", consumed %" PRIu32 " of %" PRIu64 " bytes\n", record[STYRMFLO_VISITS], record[STYRMFLO_CONSUMED], message_count);
    if (record[STYRMFLO_CONSUMED] < message_count)
        printf("a rest is left, from byte %" PRIu32 "\n", record[STYRMFLO_CONSUMED]);
    return say_values(record);
}

int main(int count, char **arguments)
{
    uint32_t budget = 100000;
    uint64_t listing_count = 0;
    int shown;
    if (count < 3 || count > 4) {
        fprintf(stderr, "display LISTING MESSAGE [BUDGET]: MESSAGE is lower-case hex pairs, or @FILE\n");
        return 2;
    }
    if (styrmflo_version() != STYRMFLO_VERSION) {
        fprintf(stderr, "display: the header is version %d, the archive %" PRIu32 "\n", STYRMFLO_VERSION, styrmflo_version());
        return 2;
    }
    if (!take_file(arguments[1], listing, sizeof listing, &listing_count) || !take_message(arguments[2]) || (count == 4 && !take_budget(arguments[3], &budget)))
        return 2;
    shown = fit(listing_count) && show(budget);
    if (fflush(stdout) != 0 || ferror(stdout)) {
        fprintf(stderr, "display: the answer could not be written\n");
        return 2;
    }
    return shown ? 0 : 1;
}

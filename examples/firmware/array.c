/* array LISTING NAME: a listing turned into C, on standard output, for firmware that has its table in flash; ./array builds it and calls it. The words are what
   styrmflo_read makes of the listing. What styrmflo_type_check refuses is refused: its number, name and place go to standard error, and nothing is written.
   Of a console input, whose first line begins with `mode=`, the first three lines are left out; line numbers count from the file's first line all the same.
   Ends with 0 if all is written, with 1 if the table is refused, and with 2 if nothing could be read or written. */
#include <inttypes.h>
#include <stdio.h>
#include <string.h>

#include "styrmflo.h"

/* A byte more than the longest listing, by which the reader sees that a longer one is none. */
static uint8_t listing[STYRMFLO_MOST_LISTING + 1];
static uint16_t words[STYRMFLO_MOST_WORDS];
static uint8_t literals[STYRMFLO_MOST_LITERALS];

/* C tells names apart by their first 63 characters: NAME and the longest ending, `_literals_count`. The three lines that are left out have an end too. */
enum { MOST_NAME = 48, LEFT_OUT = 3, MOST_LEFT_OUT = 1 << 20 };

static int is_name(const char *name)
{
    static const char letters[] = "ABCDEFGHIJKLMNOPQRSTUVWXYZabcdefghijklmnopqrstuvwxyz";
    static const char others[] = "ABCDEFGHIJKLMNOPQRSTUVWXYZabcdefghijklmnopqrstuvwxyz0123456789_";
    return strspn(name, letters) > 0 && strspn(name, others) == strlen(name) && strlen(name) <= MOST_NAME;
}

/* The names of the numbers by which a table is refused here. */
static const char *name_of(uint64_t number)
{
    switch (number) {
    case STYRMFLO_SIZE: return "SIZE";
    case STYRMFLO_FIELD: return "FIELD";
    case STYRMFLO_USE: return "USE";
    case STYRMFLO_START: return "START";
    case STYRMFLO_TYPE: return "TYPE";
    case STYRMFLO_LINE: return "LINE";
    case STYRMFLO_ROOM: return "ROOM";
    default: return "(no row)";
    }
}

static int refused(const char *path, uint64_t number, uint64_t place)
{
    fprintf(stderr, "array: %s: %" PRIu64 " %s, place %" PRIu64 "\n", path, number, name_of(number), place);
    return 1;
}

/* The listing's bytes, or as many as tell that it is none; and how many lines before it are left out. */
static int take(FILE *file, uint64_t *count, uint64_t *left_out)
{
    static const char mode[] = "mode=";
    size_t came = fread(listing, 1, sizeof mode - 1, file);
    *left_out = 0;
    if (came == sizeof mode - 1 && memcmp(listing, mode, came) == 0) {
        uint64_t ended = 0;
        int byte = 0;
        for (uint32_t i = 0; ended < LEFT_OUT && byte != EOF; i++) {
            if (i == MOST_LEFT_OUT)
                return 0;
            byte = getc(file);
            ended += byte == '\n';
        }
        *left_out = LEFT_OUT;
        came = 0;
    }
    *count = came + fread(listing + came, 1, sizeof listing - came, file);
    return !ferror(file);
}

/* A record, or the head, on a line of its own: numbers from `from` on. */
static void put_words(uint64_t from, uint64_t count)
{
    printf("   ");
    for (uint64_t i = 0; i < count; i++)
        printf(" %" PRIu16 ",", words[from + i]);
}

static void put_table(const char *name)
{
    const uint64_t rules = words[0], nodes = words[1], count = words[2];
    const uint64_t all = 3 + 15 * rules + 10 * nodes;
    printf("/* A table that passes the type check. Rules: %" PRIu64 ", nodes: %" PRIu64 ", literal bytes: %" PRIu64 ". Written by ./array from its listing. */\n", rules,
           nodes, count);
    printf("#ifndef %s_TABLE_H\n#define %s_TABLE_H\n\n#include <stdint.h>\n\n", name, name);
    printf("enum { %s_words_count = %" PRIu64 ", %s_literals_count = %" PRIu64 " };\n\n", name, all, name, count);
    printf("static const uint16_t %s_words[%" PRIu64 "] = {\n", name, all);
    put_words(0, 3);
    printf(" /* rules, nodes, literal bytes */\n");
    for (uint64_t i = 0; i < rules; i++) {
        put_words(3 + 15 * i, 15);
        printf(" /* rule %" PRIu64 " */\n", i);
    }
    for (uint64_t i = 0; i < nodes; i++) {
        put_words(3 + 15 * rules + 10 * i, 10);
        printf(" /* node %" PRIu64 " */\n", i);
    }
    printf("};\n\n");
}

/* C has no array of no elements: without literals it is one byte that isn't counted. */
static void put_literals(const char *name)
{
    const uint64_t count = words[2];
    printf("static const uint8_t %s_literals[%" PRIu64 "] = {", name, count > 0 ? count : 1);
    for (uint64_t i = 0; i < count; i++)
        printf("%s0x%02x,", i % 16 == 0 ? "\n    " : " ", literals[i]);
    printf("%s\n};\n\n#endif\n", count > 0 ? "" : "\n    0, /* not counted */");
}

static int turn(const char *path, const char *name)
{
    uint64_t answer[STYRMFLO_ANSWER_WORDS], count = 0, left_out = 0;
    uint32_t verdict;
    FILE *file = fopen(path, "rb");
    const int came = file != NULL && take(file, &count, &left_out);
    if (file != NULL)
        fclose(file);
    if (!came) {
        fprintf(stderr, "array: cannot read %s\n", path);
        return 2;
    }
    styrmflo_read(listing, count, words, STYRMFLO_MOST_WORDS, literals, STYRMFLO_MOST_LITERALS, answer, STYRMFLO_ANSWER_WORDS);
    if (answer[STYRMFLO_READ_NUMBER] != STYRMFLO_DONE)
        return refused(path, answer[STYRMFLO_READ_NUMBER], answer[STYRMFLO_READ_LINE] + (answer[STYRMFLO_READ_NUMBER] == STYRMFLO_LINE ? left_out : 0));
    verdict = styrmflo_type_check(words, answer[STYRMFLO_READ_WORDS], literals, answer[STYRMFLO_READ_LITERALS]);
    if (verdict != 0)
        return refused(path, verdict >> 16, verdict & 0xffff);
    put_table(name);
    put_literals(name);
    if (fflush(stdout) != 0 || ferror(stdout)) {
        fprintf(stderr, "array: the table could not be written\n");
        return 2;
    }
    return 0;
}

int main(int count, char **arguments)
{
    if (count != 3 || !is_name(arguments[2])) {
        fprintf(stderr, "array LISTING [NAME]: NAME is a letter, then letters, digits and underscores, at most %d in all; table if it isn't given\n", MOST_NAME);
        return 2;
    }
    if (styrmflo_version() != STYRMFLO_VERSION) {
        fprintf(stderr, "array: the header is version %d, the archive %" PRIu32 "\n", STYRMFLO_VERSION, styrmflo_version());
        return 2;
    }
    return turn(arguments[1], arguments[2]);
}

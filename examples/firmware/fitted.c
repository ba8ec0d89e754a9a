/* fitted: a display's firmware with its table in flash, to begin with and to copy from: no files, no heap, and of the C library nothing but what the compiler itself asks for.
   `./array LISTING >table.h` turns the table into C; the messages below are for examples/floor-direction-name. For a try at the desk main is at the end; where there is no C
   library (-ffreestanding) the board brings put_byte and calls fitted_messages, or fit and fitted_message. */
#include "styrmflo.h"
#include "table.h"

/* Where a byte goes that is to be seen: the board's part. */
void put_byte(uint8_t byte);
int fit(void);
int fitted_message(const uint8_t *message, uint64_t count);
int fitted_messages(void);

/* How many visits a run may make: twice what the dearest right message takes, of a maker whose names have at most 26 bytes (docs/FIRMWARE.md, 'Choosing a budget'). */
#define BUDGET 5892u

/* All that stands in RAM: what a run works in, and its answer. One run at a time. */
static uint32_t work[STYRMFLO_WORK_WORDS];
static uint32_t record[STYRMFLO_RECORD_WORDS];

static void put_text(const char *text)
{
    for (; *text != '\0'; text++)
        put_byte((uint8_t)*text);
}

static void put_number(uint32_t number)
{
    uint8_t digits[10];
    unsigned count = 0;
    do {
        digits[count++] = (uint8_t)('0' + number % 10);
        number /= 10;
    } while (number > 0);
    while (count > 0)
        put_byte(digits[--count]);
}

/* 32-bit two's complement. */
static void put_integer(uint32_t payload)
{
    const int negative = payload > INT32_MAX;
    if (negative)
        put_byte('-');
    put_number(negative ? UINT32_MAX - payload + 1 : payload);
}

/* The bytes of a Text stand in the message or in the literals: they are read there, and nothing is copied. (An empty message may be NULL: so no place in it is pointed to.) */
static void put_part(const uint8_t *message, uint64_t count, uint32_t tag, uint32_t payload)
{
    const uint64_t place = styrmflo_text(count, table_literals_count, tag, payload);
    const uint8_t *slice = (place >> 32 & 1) != 0 ? table_literals : message;
    for (uint32_t i = 0; i < (place & 0xffff); i++)
        put_byte(slice[(place >> 16 & 0xffff) + i]);
}

/* A value on a line of its own. A tag that has no row never comes here: see shown. */
static void put_value(const uint8_t *message, uint64_t count, uint32_t tag, uint32_t payload)
{
    if (tag == STYRMFLO_ABSENT)
        return;
    put_text("    ");
    if (tag == STYRMFLO_BOOL)
        put_text(payload == 1 ? "true" : "false");
    else if (tag == STYRMFLO_INTEGER)
        put_integer(payload);
    else
        put_part(message, count, tag, payload);
    put_text("\n");
}

/* Whether the record may be shown. Only DONE is, whatever other number comes, one that has no row too; only with values that have a row; and, since this maker sends one
   message at a time, only where the whole message is consumed. Another maker may send more behind it: then the last question goes. */
static int shown(uint64_t count)
{
    for (int i = 0; i < STYRMFLO_VALUES; i++)
        if (record[STYRMFLO_TAG(i)] > STYRMFLO_TEXT_IN_LITERALS || (record[STYRMFLO_TAG(i)] == STYRMFLO_BOOL && record[STYRMFLO_PAYLOAD(i)] > 1))
            return 0;
    return record[STYRMFLO_NUMBER] == STYRMFLO_DONE && record[STYRMFLO_CONSUMED] == count;
}

/* Once, before the first message: the archive is the header's, and the table passes the type check. (./array has looked already; flash may have changed since.) */
int fit(void)
{
    return styrmflo_version() == STYRMFLO_VERSION && styrmflo_type_check(table_words, table_words_count, table_literals, table_literals_count) == 0;
}

/* For each message: its values, or nothing and a line for the log. 1 if the values are shown. */
int fitted_message(const uint8_t *message, uint64_t count)
{
    styrmflo_display(table_words, table_words_count, table_literals, table_literals_count, message, count, BUDGET, work, STYRMFLO_WORK_WORDS, record, STYRMFLO_RECORD_WORDS);
    if (!shown(count)) {
        put_text("    nothing is shown: answer ");
        put_number(record[STYRMFLO_NUMBER]);
        put_text(", place ");
        put_number(record[STYRMFLO_PLACE]);
        put_text(", consumed ");
        put_number(record[STYRMFLO_CONSUMED]);
        put_text("\n");
        return 0;
    }
    for (int i = 0; i < STYRMFLO_VALUES; i++)
        put_value(message, count, record[STYRMFLO_TAG(i)], record[STYRMFLO_PAYLOAD(i)]);
    return 1;
}

/* What a controller might send: two right messages, one without its end, one with a rest, none, and a floor that is too high for 32 bits. */
static const char *const messages[] = { "F12^Roof garden.", "F0=Street.", "F12^Roof garden", "F3vLobby.F2", "", "F99999999999^Moon." };

/* 0 if the table is fitted. */
int fitted_messages(void)
{
    if (!fit()) {
        put_text("nothing is shown: no table\n");
        return 1;
    }
    for (unsigned i = 0; i < sizeof messages / sizeof *messages; i++) {
        uint64_t count = 0;
        while (messages[i][count] != '\0')
            count++;
        put_text(messages[i]);
        put_text("\n");
        fitted_message((const uint8_t *)messages[i], count);
    }
    return 0;
}

#if __STDC_HOSTED__
#include <stdio.h>

void put_byte(uint8_t byte)
{
    putchar(byte);
}

int main(void)
{
    const int status = fitted_messages();
    return fflush(stdout) != 0 || ferror(stdout) ? 2 : status;
}
#endif

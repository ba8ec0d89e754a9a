/* Styrmflo: the reader of message grammars for lift displays, for C and C++. docs/FIRMWARE.md explains each function; ./library builds the archive.
   Every function answers every input; none keeps a pointer, allocates, or calls back. A slice is a pointer and a count of elements. Counts are 64 bits wide on
   every processor, also where a pointer has 32. A slice of no elements may have any pointer, NULL too. */
#ifndef STYRMFLO_H
#define STYRMFLO_H

#include <stdint.h>

#ifdef __cplusplus
extern "C" {
#endif

/* The version of this header. Where styrmflo_version says another, header and archive don't belong together. */
#define STYRMFLO_VERSION 1

/* The greatest table: elements of `words` and of `literals`. */
#define STYRMFLO_MOST_RULES 64
#define STYRMFLO_MOST_NODES 1024
#define STYRMFLO_MOST_WORDS 11203 /* 3 + 15 rules + 10 nodes */
#define STYRMFLO_MOST_LITERALS 4096
/* The longest message, and the longest listing that styrmflo_write writes. */
#define STYRMFLO_MOST_MESSAGE 65535
#define STYRMFLO_MOST_LISTING 80862
/* What is lent to a run: W words of 32 bits, and the record; to the listing's reader and writer: their answer, words of 64 bits. */
#define STYRMFLO_WORK_WORDS 9760
#define STYRMFLO_RECORD_WORDS 12
#define STYRMFLO_ANSWER_WORDS 4
#define STYRMFLO_VALUES 4

/* The numbers that come back (README.md, 'How to read an answer'). 23 INPUT is the console program's alone. */
enum styrmflo_number {
    STYRMFLO_DONE = 0, /* of a check: passed */
    STYRMFLO_SIZE = 1,
    STYRMFLO_FIELD = 2,
    STYRMFLO_USE = 3,
    STYRMFLO_START = 4,
    STYRMFLO_TYPE = 5,
    STYRMFLO_LONG = 6,
    STYRMFLO_WORK = 7,
    STYRMFLO_NOMATCH = 8,
    STYRMFLO_BUDGET = 9,
    STYRMFLO_DEEP = 10,
    STYRMFLO_STUCK = 11,
    STYRMFLO_FAULT = 12,
    STYRMFLO_LINE = 20,
    STYRMFLO_ROOM = 21,
    STYRMFLO_OUT = 22
};

/* The record of a run: where each of its words stands. Value i, 0 to 3, has its tag at STYRMFLO_TAG(i) and its payload at STYRMFLO_PAYLOAD(i). */
enum styrmflo_record { STYRMFLO_NUMBER, STYRMFLO_PLACE, STYRMFLO_CONSUMED, STYRMFLO_VISITS, STYRMFLO_FIRST_TAG };
#define STYRMFLO_TAG(i) (STYRMFLO_FIRST_TAG + 2 * (i))
#define STYRMFLO_PAYLOAD(i) (STYRMFLO_FIRST_TAG + 2 * (i) + 1)

/* A value's tag, and what its payload is. */
enum styrmflo_tag {
    STYRMFLO_ABSENT = 0,           /* 0 */
    STYRMFLO_BOOL = 1,             /* 0 or 1 */
    STYRMFLO_INTEGER = 2,          /* 32-bit two's complement */
    STYRMFLO_TEXT_IN_MESSAGE = 3,  /* start times 65536, and length */
    STYRMFLO_TEXT_IN_LITERALS = 4  /* the same */
};

/* The answer of the listing's reader and writer: where each of its words stands. */
enum styrmflo_reading { STYRMFLO_READ_NUMBER, STYRMFLO_READ_LINE, STYRMFLO_READ_WORDS, STYRMFLO_READ_LITERALS };
enum styrmflo_writing { STYRMFLO_WRITE_NUMBER, STYRMFLO_WRITE_PLACE, STYRMFLO_WRITE_BYTES, STYRMFLO_WRITE_SPARE };

uint32_t styrmflo_version(void);

/* Checks 1 to 4, and 1 to 5: 65536 times the answer's number, and its place. */
uint32_t styrmflo_check(const uint16_t *words, uint64_t words_count, const uint8_t *literals, uint64_t literals_count);
uint32_t styrmflo_type_check(const uint16_t *words, uint64_t words_count, const uint8_t *literals, uint64_t literals_count);

/* A bench and a display run. record[0..11]: number, place, consumed, visits, then tag and payload of each of the four values. */
void styrmflo_bench(const uint16_t *words, uint64_t words_count, const uint8_t *literals, uint64_t literals_count, const uint8_t *message,
                    uint64_t message_count, uint32_t budget, uint32_t *work, uint64_t work_count, uint32_t *record, uint64_t record_count);
void styrmflo_display(const uint16_t *words, uint64_t words_count, const uint8_t *literals, uint64_t literals_count, const uint8_t *message,
                      uint64_t message_count, uint32_t budget, uint32_t *work, uint64_t work_count, uint32_t *record, uint64_t record_count);

/* Listing to table. answer[0..3]: number, line, words filled, literals filled. */
void styrmflo_read(const uint8_t *text, uint64_t text_count, uint16_t *words, uint64_t words_count, uint8_t *literals, uint64_t literals_count,
                   uint64_t *answer, uint64_t answer_count);

/* Table to listing. answer[0..3]: number, 0, bytes written, 0. */
void styrmflo_write(const uint16_t *words, uint64_t words_count, const uint8_t *literals, uint64_t literals_count, uint8_t *text,
                    uint64_t text_count, uint64_t *answer, uint64_t answer_count);

/* Where a value's bytes stand: bit 32 is set for the literals, else the message; bits 31 to 16 the start, bits 15 to 0 the length. */
uint64_t styrmflo_text(uint64_t message_count, uint64_t literals_count, uint32_t tag, uint32_t payload);

#ifdef __cplusplus
}
#endif

#endif

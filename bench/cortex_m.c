/* What calls of the reader take on an emulated Cortex-M4, in instructions: the emulator counts one a nanosecond (-icount shift=0), and the processor's own timer goes once in
   40 of them. bench/cortex_m brings a listing and a message as arrays, and runs it. */
#include "bench_data.h"
#include "styrmflo.h"

enum { ROUNDS = 20, A_TICK = 40, ALL = 0xffffff };
#define TIMER(place) (*(volatile uint32_t *)(0xe000e010 + (place)))

static uint16_t words[STYRMFLO_MOST_WORDS];
static uint8_t literals[STYRMFLO_MOST_LITERALS];
static uint32_t work[STYRMFLO_WORK_WORDS], record[STYRMFLO_RECORD_WORDS];

long write(int file, const void *from, unsigned long size);

static void tell(const char *name, uint32_t number)
{
    char digits[11];
    unsigned long at = sizeof digits, length = 0;
    digits[--at] = '\n';
    do {
        digits[--at] = (char)('0' + number % 10);
        number /= 10;
    } while (number > 0);
    while (name[length] != '\0')
        length++;
    write(1, name, length);
    write(1, digits + at, sizeof digits - at);
}

static void start(void)
{
    TIMER(4) = ALL;
    TIMER(8) = 0;
    TIMER(0) = 5;
}

static void stop(const char *name)
{
    tell(name, (ALL - TIMER(8)) * A_TICK / ROUNDS);
}

int main(void)
{
    uint64_t answer[STYRMFLO_ANSWER_WORDS];
    styrmflo_read(listing, sizeof listing, words, STYRMFLO_MOST_WORDS, literals, STYRMFLO_MOST_LITERALS, answer, STYRMFLO_ANSWER_WORDS);
    const uint64_t n = answer[STYRMFLO_READ_WORDS], l = answer[STYRMFLO_READ_LITERALS];
    start();
    for (int i = 0; i < ROUNDS; i++)
        styrmflo_check(words, n, literals, l);
    stop("table check ");
    start();
    for (int i = 0; i < ROUNDS; i++)
        styrmflo_type_check(words, n, literals, l);
    stop("type check, with the table check ");
    for (uint32_t budget = 0; budget <= 100000; budget += 100000) {
        start();
        for (int i = 0; i < ROUNDS; i++)
            styrmflo_display(words, n, literals, l, message, sizeof message, budget, work, STYRMFLO_WORK_WORDS, record, STYRMFLO_RECORD_WORDS);
        stop(budget == 0 ? "display run with budget 0 " : "display run ");
    }
    tell("its answer ", record[STYRMFLO_NUMBER]);
    tell("its visits ", record[STYRMFLO_VISITS]);
    return 0;
}

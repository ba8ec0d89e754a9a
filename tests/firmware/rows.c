/* What examples/firmware/display.c does with every number and tag, those that no run gives and those that have no row: its own functions, with main under another name.
   rows.rs asks the same of display.rs, in the same order; rows.stored is what both must say. */
#define main display_main
#include "../../examples/firmware/display.c"
#undef main

static const uint64_t numbers[] = { 23, 24, 128, 255, 256, 268, 65536, 2147483648, 4294967295, 4294967296, 4294967308, 18446744073709551615u };
/* Tag and payload. Of the payloads: a Bool that is neither 0 nor 1, the greatest and the smallest Integer, a Text of two bytes from byte 1 on, one of two from byte 2 on,
   which doesn't fit. */
static const uint32_t values[][2] = {
    { 0, 0 }, { 0, 9 }, { 1, 0 }, { 1, 1 }, { 1, 2 }, { 1, 256 }, { 2, 0 }, { 2, 2147483647 }, { 2, 2147483648 }, { 2, 4294967295 }, { 3, 0 }, { 3, 65538 }, { 3, 131074 },
    { 4, 3 }, { 4, 131074 }, { 5, 0 }, { 6, 1 }, { 128, 1 }, { 255, 0 }, { 256, 0 }, { 257, 1 }, { 258, 0 }, { 259, 3 }, { 260, 3 }, { 65536, 0 }, { 65539, 3 }, { 2147483648, 0 },
    { 4294967295, 4294967295 },
};
enum { NUMBERS = sizeof numbers / sizeof *numbers, VALUES = sizeof values / sizeof *values };

static void say(int shown)
{
    printf("%s\n", shown ? "(shown)" : "(not shown)");
}

int main(void)
{
    memcpy(message, "a\"\n", 3);
    memcpy(literals, "x\\\xff", 3);
    message_count = literals_count = 3;
    for (uint64_t number = 0; number < 23; number++)
        say(say_answer(number, 7) == SHOW);
    for (int i = 0; i < NUMBERS; i++)
        say(say_answer(numbers[i], 7) == SHOW);
    /* each of them in one of the four places, beside three that can be shown */
    for (int i = 0; i < VALUES; i++) {
        uint32_t of[STYRMFLO_RECORD_WORDS] = { 0, 0, 0, 0, 2, 10, 2, 11, 2, 12, 2, 13 };
        of[STYRMFLO_TAG(i % 4)] = values[i][0];
        of[STYRMFLO_PAYLOAD(i % 4)] = values[i][1];
        printf("tag %" PRIu32 ", payload %" PRIu32 "\n", values[i][0], values[i][1]);
        say(say_values(of));
    }
    return fflush(stdout) != 0;
}

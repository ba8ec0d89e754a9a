/* The listing of a table that ./array has turned into C, as styrmflo_write writes it. */
#include <stdio.h>

#include "styrmflo.h"
#include "table.h"

static uint8_t text[STYRMFLO_MOST_LISTING];

int main(void)
{
    uint64_t answer[STYRMFLO_ANSWER_WORDS];
    styrmflo_write(table_words, table_words_count, table_literals, table_literals_count, text, STYRMFLO_MOST_LISTING, answer, STYRMFLO_ANSWER_WORDS);
    if (answer[STYRMFLO_WRITE_NUMBER] != STYRMFLO_DONE)
        return 1;
    fwrite(text, 1, (size_t)answer[STYRMFLO_WRITE_BYTES], stdout);
    return fflush(stdout) != 0;
}

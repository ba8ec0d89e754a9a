/* The board's part of examples/firmware/fitted.c, where there is no C library: bytes go to standard output as tests/shipped/bare.c has it. */
#include <stdint.h>

long write(int file, const void *from, unsigned long size);
void put_byte(uint8_t byte);
int fitted_messages(void);
int main(void);

void put_byte(uint8_t byte)
{
    write(1, &byte, 1);
}

int main(void)
{
    return fitted_messages();
}

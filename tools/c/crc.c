/* Writes the CRC-32 of the nine digits "123456789", which is known to be cbf43926. */
#include "console.h"

static const char digits[] = "123456789";

/* The CRC-32 of zip and Ethernet, bit by bit. */
static unsigned crc32(const char *text)
{
    unsigned crc = 0xffffffff;

    for (; *text; text++) {
        crc ^= (unsigned char)*text;
        for (int bit = 0; bit < 8; bit++)
            crc = crc & 1 ? crc >> 1 ^ 0xedb88320 : crc >> 1;
    }
    return ~crc;
}

/* What main returns is in x10 at the end. */
unsigned main(void)
{
    unsigned crc = crc32(digits);

    put_text("crc32(");
    put_text(digits);
    put_text(") = ");
    put_hex(crc);
    put_char('\n');
    return crc;
}

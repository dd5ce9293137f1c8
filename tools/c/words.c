/* Makes 63 words, sorts them, and writes the least, the middle one, the greatest, and the CRC-32 of all. */
#include "console.h"

enum { COUNT = 63 };

static unsigned words[COUNT];

/* Marsaglia's generator of 32 bits with the shifts 13, 17 and 5. */
static void make_words(void)
{
    unsigned word = 1;

    for (int i = 0; i < COUNT; i++) {
        word ^= word << 13;
        word ^= word >> 17;
        word ^= word << 5;
        words[i] = word;
    }
}

/* Puts a word into the heap of so many words, from a place down, whose own word is free. */
static void sift(unsigned word, int place, int count)
{
    for (int child = 2 * place + 1; child < count; child = 2 * place + 1) {
        if (child + 1 < count && words[child] < words[child + 1])
            child++;
        if (words[child] <= word)
            break;
        words[place] = words[child];
        place = child;
    }
    words[place] = word;
}

/* Heap sort. */
static void sort_words(void)
{
    for (int place = COUNT / 2 - 1; place >= 0; place--)
        sift(words[place], place, COUNT);
    for (int last = COUNT - 1; last > 0; last--) {
        unsigned word = words[last];

        words[last] = words[0];
        sift(word, 0, last);
    }
}

/* The CRC-32 of zip and Ethernet, four bits at a time. */
static unsigned crc32(const unsigned char *bytes, int count)
{
    static const unsigned table[16] = {
        0x00000000, 0x1db71064, 0x3b6e20c8, 0x26d930ac, 0x76dc4190, 0x6b6b51f4, 0x4db26158, 0x5005713c,
        0xedb88320, 0xf00f9344, 0xd6d6a3e8, 0xcb61b38c, 0x9b64c2b0, 0x86d3d2d4, 0xa00ae278, 0xbdbdf21c,
    };
    unsigned crc = 0xffffffff;

    for (int i = 0; i < count; i++) {
        crc ^= bytes[i];
        crc = table[crc & 15] ^ crc >> 4;
        crc = table[crc & 15] ^ crc >> 4;
    }
    return ~crc;
}

static void put_word(unsigned word, char after)
{
    put_hex(word);
    put_char(after);
}

/* What main returns is in x10 at the end. */
unsigned main(void)
{
    unsigned crc;

    make_words();
    sort_words();
    crc = crc32((const unsigned char *)words, sizeof words);
    put_word(words[0], ' ');
    put_word(words[COUNT / 2], ' ');
    put_word(words[COUNT - 1], ' ');
    put_word(crc, '\n');
    return crc;
}

/* Compresses a text by libbz2 and writes what came of it to the console, byte by byte. Then it is decompressed again, and main returns 0 where
   that is the text. The text is in text.inc, as numbers of bytes. */
#include <stdio.h>
#include <string.h>
#include "bzlib.h"

static char text[] = {
#include "text.inc"
};

static char packed[sizeof text + sizeof text / 100 + 600];
static char unpacked[sizeof text];

/* The library's memory is of one piece: malloc of picolibc would clear it all, byte by byte. */
static char room[1200000] __attribute__((aligned(8)));
static unsigned taken;

static void *take(void *all, int items, int size)
{
    unsigned bytes = ((unsigned)items * (unsigned)size + 7) & ~7u;

    (void)all;
    if (bytes > sizeof room - taken)
        return NULL;
    taken += bytes;
    return room + taken - bytes;
}

static void give_back(void *all, void *bytes)
{
    (void)all;
    (void)bytes;
}

/* How many bytes came of the text, or 0. */
static unsigned pack(void)
{
    bz_stream stream = {.bzalloc = take, .bzfree = give_back};

    if (BZ2_bzCompressInit(&stream, 1, 0, 0) != BZ_OK)
        return 0;
    stream.next_in = text;
    stream.avail_in = sizeof text;
    stream.next_out = packed;
    stream.avail_out = sizeof packed;
    if (BZ2_bzCompress(&stream, BZ_FINISH) != BZ_STREAM_END)
        return 0;
    BZ2_bzCompressEnd(&stream);
    return stream.total_out_lo32;
}

/* Whether the text comes of so many bytes. */
static int unpack(unsigned length)
{
    bz_stream stream = {.bzalloc = take, .bzfree = give_back};

    taken = 0;
    if (BZ2_bzDecompressInit(&stream, 0, 0) != BZ_OK)
        return 0;
    stream.next_in = packed;
    stream.avail_in = length;
    stream.next_out = unpacked;
    stream.avail_out = sizeof unpacked;
    return BZ2_bzDecompress(&stream) == BZ_STREAM_END && memcmp(unpacked, text, sizeof text) == 0;
}

int main(void)
{
    unsigned length = pack();

    fwrite(packed, 1, length, stdout);
    return length && unpack(length) ? 0 : 1;
}

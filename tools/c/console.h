/* The console. A program that runs by itself stores each byte at its first address. One that runs as a guest has its monitor write it: it
   makes an ecall with 0, which is PUT_CHAR, in x17 and the byte in x10. build.sh defines GUEST for a guest. */
#ifndef CONSOLE_H
#define CONSOLE_H

enum { PUT_CHAR = 0 };

#ifdef GUEST
static inline void put_char(char character)
{
    register unsigned byte __asm__("x10") = (unsigned char)character;
    register unsigned number __asm__("x17") = PUT_CHAR;

    __asm__ volatile("ecall" : "+r"(byte) : "r"(number) : "memory");
}
#else
extern volatile unsigned char console; /* its address is set by program.ld */

static inline void put_char(char character)
{
    console = (unsigned char)character;
}
#endif

static inline void put_text(const char *text)
{
    while (*text)
        put_char(*text++);
}

/* Writes a word as eight hexadecimal digits. */
static inline void put_hex(unsigned word)
{
    for (int shift = 28; shift >= 0; shift -= 4)
        put_char("0123456789abcdef"[word >> shift & 15]);
}

#endif

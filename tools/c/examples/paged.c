/* A guest of pager.c. It uses more pages than it begins with, writes a text by one ecall, and at last stores through a null pointer. */
#include "console.h"
#include "pager.h"

static volatile unsigned char table[3 * 4096];

static unsigned ask(unsigned number, unsigned first, unsigned second)
{
    register unsigned x10 __asm__("x10") = first;
    register unsigned x11 __asm__("x11") = second;
    register unsigned x17 __asm__("x17") = number;

    __asm__ volatile("ecall" : "+r"(x10) : "r"(x11), "r"(x17) : "memory");
    return x10;
}

static void put_pages(void)
{
    put_text("pages ");
    put_hex(ask(PAGES, 0, 0));
    put_char('\n');
}

int main(void)
{
    static const char text[] = "written at once\n";
    volatile unsigned char *volatile nowhere = 0;

    put_pages();
    for (unsigned i = 0; i < sizeof table; i += 1024)
        table[i] = 1;
    put_pages();
    put_hex(ask(WRITE, (unsigned)text, sizeof text - 1));
    put_char('\n');
    put_hex(ask(WRITE, 0xfffffff0, 100));
    put_char('\n');
    *nowhere = 1;
    put_text("never here\n");
    return 0;
}

/* What the monitor of pager.c does at an ecall of its guest, besides PUT_CHAR of console.h. The number is in x17, the answer in x10. */
#ifndef PAGER_H
#define PAGER_H

enum {
    WRITE = 1, /* writes a text, whose address is in x10 and whose length in x11; answers how many bytes it wrote */
    PAGES = 2, /* answers how many pages the guest was given so far */
};

#endif

/* Whole pages, which nova.h includes. */
#ifndef NOVA_PAGES_H
#define NOVA_PAGES_H

/* Defines an array of pages, `unsigned char name[count * NOVA_PAGE_BYTES]`, which begins with zeros: as in

       static NOVA_PAGES(registers, 1);

   They are for what is given to others. A right is one to a whole page, so nothing else may lie there: the array is aligned to pages and
   fills them, in a section of its own, where the linker puts no other variable. (`NOVA_PAGES` without a bracket is a number of nova.h.) */
#define NOVA_PAGES(name, count) \
    unsigned char name[(count) * NOVA_PAGE_BYTES] __attribute__((aligned(4096), section(".bss.nova_pages")))

#endif

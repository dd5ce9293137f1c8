/* Assertions, which nova.h includes: what is to hold wherever turns may fall. `tools/explore NAME.nova --elf NAME.elf asserts` says whether any order
   of turns makes a failure of one. */
#ifndef NOVA_ASSERT_H
#define NOVA_ASSERT_H

/* Nothing where the condition holds. Else `nova_failed` becomes 1 and the thread ends by ebreak, with the address of a text in x10: the file, the
   line and the condition. */
#define nova_assert(condition) ((condition) ? (void)0 : nova_fail(__FILE_NAME__ ":" NOVA_TEXT(__LINE__) ": " #condition))

#define NOVA_TEXT(number) NOVA_TEXT_OF(number)
#define NOVA_TEXT_OF(number) #number

/* Whether an assertion failed. It is defined where a condition may fail, once for all sources, and begins with 0. In a domain that doesn't hold its
   page a failure is a store fault, which `asserts` doesn't find. */
extern volatile uint32_t nova_failed;

/* What a failure does: its text is in x10 when nova_failed becomes 1. It is put where it is called, so that the pc is of the line that failed. */
static inline __attribute__((always_inline, noreturn)) void nova_fail(const char *text)
{
    register const char *x10 __asm__("x10") = text;

    __asm__ volatile(".comm nova_failed, 4, 4\n\tsw %1, %0\n\tebreak" : "=m"(nova_failed) : "r"(1), "r"(x10) : "memory");
    __builtin_unreachable();
}

#endif

/* Ranges of arguments, which nova.h includes. Several of them share a word, and one that is too large would reach into its neighbour. Where
   that is known when the program is compiled, it is an error with the text below. Where it isn't, the call is refused and not made. */
#ifndef NOVA_CHECKS_H
#define NOVA_CHECKS_H

/* Whether a condition holds, where it is an error of the program if it is known not to. */
#define NOVA_HOLDS(condition, wrong) (__builtin_constant_p(condition) && !(condition) ? (wrong(), 0) : (condition))

#define NOVA_WRONG(name, text) void name(void) __attribute__((error("nova.h: " text)))

/* Of a function whose status is to be used, since it decides how a program goes on: the compiler warns where it isn't. */
#define NOVA_USED __attribute__((warn_unused_result))

NOVA_WRONG(nova_wrong_kind, "an execution context is NOVA_LOCAL, NOVA_GLOBAL or NOVA_VCPU");
NOVA_WRONG(nova_wrong_cpu, "a processor is 0 to 255");
NOVA_WRONG(nova_wrong_priority, "a priority is 0 to 255");
NOVA_WRONG(nova_wrong_quantum, "a quantum is 1 to 16,777,215 turns");
NOVA_WRONG(nova_wrong_range, "a range has an order of 0 to 20, a base that is below 2^20 and a multiple of 2^order, and rights of 0 to 31");
NOVA_WRONG(nova_wrong_counts, "a message has at most 124 words, of which each item takes two");
NOVA_WRONG(nova_wrong_item, "an item is 0 to 61, and a hotspot is below 2^20");
NOVA_WRONG(nova_wrong_gifts, "at most 62 ranges are given at a time");

#endif

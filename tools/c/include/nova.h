/* The hypercalls in C, and the numbers of the machine by their names. docs/MANUAL.md says what each call does and when it is refused.

   A thread makes hypercalls; a guest on a virtual CPU makes none. Each function is one `ecall`, and answers with the call's status. What a
   call gives besides goes where a pointer says; it is written only with NOVA_SUCCESS. */
#ifndef NOVA_H
#define NOVA_H

#include <stdint.h>

/* A selector of the caller's domain, below NOVA_SELECTORS. */
typedef uint32_t nova_selector;

/* A range word: a type, rights, an order and a base. */
typedef uint32_t nova_range;

/* Where code begins: a function, or an entry that NOVA_PORTAL or NOVA_THREAD made. */
typedef void (*nova_entry)(void);

/* The numbers of the hypercalls, in x17. */
enum nova_number {
    NOVA_CALL = 0,
    NOVA_REPLY = 1,
    NOVA_CREATE_PD = 2,
    NOVA_CREATE_EC = 3,
    NOVA_CREATE_SC = 4,
    NOVA_CREATE_PT = 5,
    NOVA_CREATE_SM = 6,
    NOVA_REVOKE = 7,
    NOVA_LOOKUP = 8,
    NOVA_EC_CTRL = 9,
    NOVA_SC_CTRL = 10,
    NOVA_PT_CTRL = 11,
    NOVA_SM_CTRL = 12,
};

/* How a hypercall ended, in x10. */
enum nova_status {
    NOVA_SUCCESS = 0,
    NOVA_TIMEOUT = 1,
    NOVA_ABORTED = 2,
    NOVA_OVERFLOW = 3,
    NOVA_BAD_HYP = 4,
    NOVA_BAD_CAP = 5,
    NOVA_BAD_PAR = 6,
    NOVA_BAD_CPU = 7,
    NOVA_BUSY = 8,
};

/* The kinds of execution contexts. */
enum nova_kind {
    NOVA_LOCAL = 0,  /* a thread that portals lead to */
    NOVA_GLOBAL = 1, /* a thread with turns of its own */
    NOVA_VCPU = 2,   /* a virtual CPU */
};

/* What sm_ctrl does. */
enum nova_operation {
    NOVA_UP = 0,
    NOVA_DOWN = 1,
    NOVA_DOWN_WITH_DEADLINE = 2,
};

/* The flag of call. */
enum nova_waiting {
    NOVA_WAIT = 0,      /* helps a handler that is at work for another */
    NOVA_DONT_WAIT = 1, /* is NOVA_TIMEOUT then */
};

/* The flag of revoke. */
enum nova_scope {
    NOVA_OTHERS = 0, /* what was given */
    NOVA_SELF = 1,   /* and what it was given from */
};

/* Why an exit is raised: the portal for it is at the selector event base + reason. */
enum nova_reason {
    NOVA_STARTUP = 0,
    NOVA_ILLEGAL = 1,
    NOVA_FETCH_FAULT = 2,
    NOVA_LOAD_FAULT = 3,
    NOVA_STORE_FAULT = 4,
    NOVA_MISALIGNED = 5,
    NOVA_ECALL = 6,
    NOVA_EBREAK = 7,
    NOVA_RECALL = 8,
};

/* The second qualification of NOVA_MISALIGNED. That of a load or store fault is the width in bytes. */
enum nova_access {
    NOVA_JUMP = 0,
    NOVA_LOAD = 1,
    NOVA_STORE = 2,
};

/* Rights, which are added up. Those of an object mean what its kind gives them. */
enum nova_rights {
    NOVA_READ = 1,
    NOVA_WRITE = 2,
    NOVA_EXECUTE = 4,

    NOVA_PD_CREATE = 1,
    NOVA_EC_CONTROL = 1,
    NOVA_EC_BIND_SC = 2,
    NOVA_EC_BIND_PT = 4,
    NOVA_SC_CONTROL = 1,
    NOVA_PT_CONTROL = 1,
    NOVA_PT_CALL = 2,
    NOVA_PT_EVENT = 4,
    NOVA_SM_UP = 1,
    NOVA_SM_DOWN = 2,

    /* All rights of each. */
    NOVA_ALL_OF_MEMORY = 7,
    NOVA_ALL_OF_PD = 1,
    NOVA_ALL_OF_EC = 7,
    NOVA_ALL_OF_SC = 1,
    NOVA_ALL_OF_PT = 7,
    NOVA_ALL_OF_SM = 3,
    NOVA_ALL_RIGHTS = 31, /* as many as a range word has room for */
};

/* The types of range words. */
enum nova_type {
    NOVA_NULL = 0,
    NOVA_MEMORY = 1,
    NOVA_OBJECTS = 3,
};

/* The groups of an exit's message, which are added up: of which a portal's handler is told, and which a reply writes back. */
enum nova_groups {
    NOVA_QUAL = 1,
    NOVA_PC = 2,
    NOVA_LOW = 4,
    NOVA_HIGH = 8,
    NOVA_ALL_GROUPS = 15,
};

/* The second word of an item. */
enum nova_item_flag {
    NOVA_TRANSLATE = 0,
    NOVA_DELEGATE = 1,
};

/* Places among the message words. */
enum nova_place {
    NOVA_COUNTS = 0,
    NOVA_TRANSLATION_WINDOW = 1,
    NOVA_DELEGATION_WINDOW = 2,
    NOVA_DATA = 4,
    NOVA_ITEM_RANGE = 126, /* of item 0; that of item i is 2 * i further down */
    NOVA_ITEM_SECOND = 127,

    /* Of an exit's message. */
    NOVA_EXIT_GROUPS = 4,
    NOVA_EXIT_Q0 = 5,
    NOVA_EXIT_Q1 = 6,
    NOVA_EXIT_PC = 7,
    NOVA_EXIT_X0 = 8, /* that of register i is i further up */
};

/* Sizes. */
enum nova_sizes {
    NOVA_WORDS = 128,         /* message words of a thread */
    NOVA_DATA_WORDS = 124,    /* of them those that a message may have, two for each item */
    NOVA_ITEMS = 62,          /* items that a message may have */
    NOVA_EXIT_WORDS = 36,     /* words that an exit's message counts */
    NOVA_REASONS = 9,         /* portals for exits, from the event base on */
    NOVA_CALLS = 13,
    NOVA_PAGE_BYTES = 4096,
    NOVA_PAGES = 1048576,     /* of a domain */
    NOVA_SELECTORS = 1048576, /* of a domain */
    NOVA_MOST_ORDER = 20,     /* of a range */
    NOVA_MOST_EVENT_BASE = 1048567,
    NOVA_MOST_QUANTUM = 16777215,
    NOVA_MOST_PRIORITY = 255,
    NOVA_MOST_SOURCES = 32,
};

/* Where the fields of range words, of a message's counts and of an item's second word begin. */
enum nova_fields {
    NOVA_RIGHTS_AT = 2,
    NOVA_ORDER_AT = 7,
    NOVA_BASE_AT = 12,
    NOVA_ITEMS_AT = 16,
    NOVA_HOTSPOT_AT = 12,
};

/* What main holds at its beginning: its domain, itself, its scheduling context, and the semaphores of the scenario's sources. From the
   event base on lie the portals of its exits. */
enum nova_held {
    NOVA_OWN_PD = 0,
    NOVA_OWN_EC = 1,
    NOVA_OWN_SC = 2,
    NOVA_FIRST_SOURCE = 3,
    NOVA_OWN_EVENT_BASE = 16,
};

#define NOVA_WORDS_ADDRESS 0xfffff000

/* The message words of the thread that runs. */
#define nova_words ((volatile uint32_t *)NOVA_WORDS_ADDRESS)

/* The word of an exit's message that has register x0 to x31. */
#define nova_register(number) (nova_words[NOVA_EXIT_X0 + (number)])

#include "nova_assert.h"
#include "nova_checks.h"
#include "nova_messages.h"

/* Hypercalls. */

/* The call of a number with its arguments in x10 to x14. The value in x11 at its end goes to *value, where that is not null. */
static inline enum nova_status nova_hypercall(enum nova_number number, uint32_t a0, uint32_t a1, uint32_t a2, uint32_t a3, uint32_t a4,
    uint32_t *value)
{
    register uint32_t x10 __asm__("x10") = a0;
    register uint32_t x11 __asm__("x11") = a1;
    register uint32_t x12 __asm__("x12") = a2;
    register uint32_t x13 __asm__("x13") = a3;
    register uint32_t x14 __asm__("x14") = a4;
    register uint32_t x17 __asm__("x17") = (uint32_t)number;

    __asm__ volatile("ecall" : "+r"(x10), "+r"(x11) : "r"(x12), "r"(x13), "r"(x14), "r"(x17) : "memory");
    if (value && x10 == NOVA_SUCCESS)
        *value = x11;
    return (enum nova_status)x10;
}

/* Calls a portal with the message of the message words, and comes back with the reply's message in them. */
NOVA_USED static inline enum nova_status nova_call(nova_selector portal, enum nova_waiting waiting)
{
    return nova_hypercall(NOVA_CALL, portal, (uint32_t)waiting, 0, 0, 0, 0);
}

/* Replies with the message of the message words. It comes back only where it is refused. An entry of NOVA_PORTAL replies by itself. */
static inline enum nova_status nova_reply(void)
{
    return nova_hypercall(NOVA_REPLY, 0, 0, 0, 0, 0, 0);
}

/* Makes a protection domain. It begins with what the caller's domain holds in the first range, which may be NOVA_NULL. */
NOVA_USED static inline enum nova_status nova_create_pd(nova_selector target, nova_selector pd, nova_range first)
{
    return nova_hypercall(NOVA_CREATE_PD, target, pd, first, 0, 0, 0);
}

/* Makes an execution context in a domain and on a processor, with `sp` in x2. A processor above 255 is NOVA_BAD_CPU. */
NOVA_USED static inline enum nova_status nova_create_ec(nova_selector target, nova_selector pd, enum nova_kind kind, uint32_t cpu, uint32_t sp,
    nova_selector event_base)
{
    if (!NOVA_HOLDS(cpu <= 255, nova_wrong_cpu))
        return NOVA_BAD_CPU;
    if (!NOVA_HOLDS((uint32_t)kind <= NOVA_VCPU, nova_wrong_kind))
        return NOVA_BAD_PAR;
    return nova_hypercall(NOVA_CREATE_EC, target, pd, (uint32_t)kind << 8 | cpu, sp, event_base, 0);
}

/* Makes a scheduling context for a global thread or a virtual CPU, which can have turns from then on. A priority above NOVA_MOST_PRIORITY
   and a quantum of 0 or above NOVA_MOST_QUANTUM are NOVA_BAD_PAR. */
NOVA_USED static inline enum nova_status nova_create_sc(nova_selector target, nova_selector pd, nova_selector ec, uint32_t priority, uint32_t quantum)
{
    if (!NOVA_HOLDS(priority <= NOVA_MOST_PRIORITY, nova_wrong_priority))
        return NOVA_BAD_PAR;
    if (!NOVA_HOLDS(quantum > 0 && quantum <= NOVA_MOST_QUANTUM, nova_wrong_quantum))
        return NOVA_BAD_PAR;
    return nova_hypercall(NOVA_CREATE_SC, target, pd, ec, quantum << 8 | priority, 0, 0);
}

/* Makes a portal to a local thread. Of an exit the handler is told the groups, a sum of enum nova_groups. */
NOVA_USED static inline enum nova_status nova_create_pt(nova_selector target, nova_selector pd, nova_selector ec, uint32_t groups, nova_entry entry)
{
    return nova_hypercall(NOVA_CREATE_PT, target, pd, ec, groups, (uint32_t)entry, 0);
}

/* Makes a semaphore. */
NOVA_USED static inline enum nova_status nova_create_sm(nova_selector target, nova_selector pd, uint32_t counter)
{
    return nova_hypercall(NOVA_CREATE_SM, target, pd, counter, 0, 0, 0);
}

/* Takes away what was given of a range that the caller's domain holds. */
static inline enum nova_status nova_revoke(nova_range range, enum nova_scope scope)
{
    return nova_hypercall(NOVA_REVOKE, range, (uint32_t)scope, 0, 0, 0, 0);
}

/* Tells the range in which the caller's domain holds the first place of a range, or 0. */
static inline enum nova_status nova_lookup(nova_range range, nova_range *held)
{
    return nova_hypercall(NOVA_LOOKUP, range, 0, 0, 0, 0, held);
}

/* Recalls a thread or a virtual CPU: it raises NOVA_RECALL instead of its next instruction. */
static inline enum nova_status nova_ec_ctrl(nova_selector ec)
{
    return nova_hypercall(NOVA_EC_CTRL, ec, 0, 0, 0, 0, 0);
}

/* Tells how many turns a scheduling context was charged for. */
static inline enum nova_status nova_sc_ctrl(nova_selector sc, uint32_t *turns)
{
    return nova_hypercall(NOVA_SC_CTRL, sc, 0, 0, 0, 0, turns);
}

/* The turns that main's own scheduling context was charged for, 0 where it doesn't hold that. */
static inline uint32_t nova_own_turns(void)
{
    uint32_t turns = 0;

    (void)nova_sc_ctrl(NOVA_OWN_SC, &turns);
    return turns;
}

/* Gives a portal its identifier, which its handler is told. */
static inline enum nova_status nova_pt_ctrl(nova_selector portal, uint32_t identifier)
{
    return nova_hypercall(NOVA_PT_CTRL, portal, identifier, 0, 0, 0, 0);
}

/* Raises or lowers a semaphore's counter; a down waits while it is 0. The ticks are for NOVA_DOWN_WITH_DEADLINE alone. */
static inline enum nova_status nova_sm_ctrl(nova_selector sm, enum nova_operation operation, uint32_t ticks)
{
    return nova_hypercall(NOVA_SM_CTRL, sm, (uint32_t)operation, ticks, 0, 0, 0);
}

static inline enum nova_status nova_up(nova_selector sm)
{
    return nova_sm_ctrl(sm, NOVA_UP, 0);
}

NOVA_USED static inline enum nova_status nova_down(nova_selector sm)
{
    return nova_sm_ctrl(sm, NOVA_DOWN, 0);
}

/* A down that gives up with NOVA_TIMEOUT after so many turns of its processor. */
static inline enum nova_status nova_down_with_deadline(nova_selector sm, uint32_t ticks)
{
    return nova_sm_ctrl(sm, NOVA_DOWN_WITH_DEADLINE, ticks);
}

#include "nova_entries.h"
#include "nova_pages.h"
#include "nova_domains.h"

#endif

/* What an example does where a hypercall is refused: it says which one and how, and ends. The status is a number of enum nova_status, behind which
   programs that are built with --debug say its name. */
#ifndef MUST_H
#define MUST_H

#include "console.h"
#include "nova.h"

#ifdef NOVA_DEBUG
static inline const char *must_name(enum nova_status status)
{
    static const char *const names[] = {"SUCCESS", "TIMEOUT", "ABORTED", "OVERFLOW", "BAD_HYP", "BAD_CAP", "BAD_PAR", "BAD_CPU", "BUSY"};

    return status < sizeof names / sizeof *names ? names[status] : "no status";
}
#endif

static inline void must(enum nova_status status, const char *what)
{
    if (status == NOVA_SUCCESS)
        return;
    put_text(what);
    put_text(": status ");
    put_hex(status);
#ifdef NOVA_DEBUG
    put_char(' ');
    put_text(must_name(status));
#endif
    put_char('\n');
    __builtin_trap();
}

#endif

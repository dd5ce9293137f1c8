/* Whole pages, between variables of other sizes: what begins where, and that nothing else lies there; and the turns of main's scheduling
   context. */
#include "console.h"
#include "nova.h"

static char before = 1;
static NOVA_PAGES(one, 1);
static char between[3];
static volatile NOVA_PAGES(three, 3);
static int behind[5];

static int is_apart(const volatile void *variable, const volatile void *pages, uint32_t bytes)
{
    return (uint32_t)variable - (uint32_t)pages >= bytes;
}

static int are_apart(const volatile void *pages, uint32_t bytes)
{
    return (uint32_t)pages % NOVA_PAGE_BYTES == 0 && is_apart(&before, pages, bytes) && is_apart(between, pages, bytes) &&
           is_apart(behind, pages, bytes);
}

int main(void)
{
    uint32_t turns = nova_own_turns();

    one[0] = three[sizeof three - 1] = between[0] = before;
    behind[0] = one[1];
    put_text(are_apart(one, sizeof one) && are_apart(three, sizeof three) ? "apart\n" : "mixed\n");
    put_text(sizeof one == NOVA_PAGE_BYTES && sizeof three == 3 * NOVA_PAGE_BYTES && NOVA_PAGES == 1 << 20 ? "whole\n" : "parts\n");
    put_text(turns > 0 && nova_own_turns() > turns + 100 ? "later\n" : "not later\n");
    return one[0] + three[sizeof three - 1] + behind[0];
}

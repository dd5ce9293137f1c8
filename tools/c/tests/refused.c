/* A call that is refused, in a program that is built for a debugger: its status has a name then, and the words for the compiler before --debug
   count, too. */
#include "must.h"

int main(void)
{
    must(nova_create_sm(32, NOVA_OWN_PD, 1), "create_sm");
    must(nova_down(32), "down");
    put_text(must_name(nova_down(HELD)));
    put_char('\n');
    return 0;
}

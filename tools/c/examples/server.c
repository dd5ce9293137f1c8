/* A server in a domain of its own, which counts the letters of a text that a caller gives it for the time being. */
#include "server.h"

enum { WINDOW = 0x100 }; /* the page at which the server takes what it is given */

NOVA_STACK(stack, 512);

unsigned char *const server_stack_end = stack + sizeof stack;

NOVA_PORTAL(server_open, on_open);
NOVA_PORTAL(server_count, on_count);

/* A thread has no windows at first. What it writes into its message words stays there. */
void on_open(uint32_t identifier)
{
    (void)identifier;
    nova_set_windows(NOVA_NULL, nova_memory(WINDOW, 0, NOVA_READ));
    nova_set_counts(0, 0);
}

static int is_letter(char character)
{
    return (character | 32) >= 'a' && (character | 32) <= 'z';
}

void on_count(uint32_t identifier)
{
    uint32_t place = nova_words[TEXT_PLACE], length = nova_words[TEXT_LENGTH], letters = 0;
    const char *text = (const char *)(WINDOW * NOVA_PAGE_BYTES + place);

    (void)identifier;
    nova_set_counts(0, 0);
    if (nova_item(0) == NOVA_NULL || place > NOVA_PAGE_BYTES || length > NOVA_PAGE_BYTES - place)
        return;
    for (uint32_t i = 0; i < length; i++)
        letters += (uint32_t)is_letter(text[i]);
    nova_words[LETTERS] = letters;
    nova_set_counts(1, 0);
}

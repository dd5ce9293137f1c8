/* A client and its server, in two domains. The client makes the server's domain, which holds half of the memory: the program, but neither the
   client's stack nor the page with the text. It calls the server three times: so that it gets ready, with a text, and with one that reaches
   past its page. */
#include "must.h"
#include "server.h"

/* Selectors. */
enum { DOMAIN = 32, SERVER = 33, OPEN = 34, COUNT = 35 };

/* Of the sixteen pages the program has the first, and the stack of main the last. The server shares pages 0 to 7. */
enum { SHARED_ORDER = 3, TEXT_PAGE = 9 };

static char *const text = (char *)(TEXT_PAGE * NOVA_PAGE_BYTES);

static void make_server(void)
{
    must(nova_create_pd(DOMAIN, NOVA_OWN_PD, nova_memory(0, SHARED_ORDER, NOVA_ALL_OF_MEMORY)), "create_pd");
    must(nova_create_ec(SERVER, DOMAIN, NOVA_LOCAL, 0, (uint32_t)server_stack_end, 0), "create_ec");
    must(nova_create_pt(OPEN, NOVA_OWN_PD, SERVER, 0, server_open), "create_pt");
    must(nova_create_pt(COUNT, NOVA_OWN_PD, SERVER, 0, server_count), "create_pt");
}

static uint32_t write_text(const char *from)
{
    uint32_t length = 0;

    for (; from[length]; length++)
        text[length] = from[length];
    return length;
}

/* Lends the text's page to the server and takes it back. */
static void ask(uint32_t length)
{
    nova_range page = nova_memory(TEXT_PAGE, 0, NOVA_READ);

    nova_words[TEXT_PLACE] = 0;
    nova_words[TEXT_LENGTH] = length;
    nova_delegate(0, page, 0);
    nova_set_counts(2, 1);
    must(nova_call(COUNT, NOVA_WAIT), "call");
    if (nova_words_in(nova_words[NOVA_COUNTS]) == 1) {
        put_text("letters ");
        put_hex(nova_words[LETTERS]);
        put_char('\n');
    } else {
        put_text("refused\n");
    }
    must(nova_revoke(page, NOVA_OTHERS), "revoke");
}

int main(void)
{
    make_server();
    nova_set_counts(0, 0);
    must(nova_call(OPEN, NOVA_WAIT), "call");
    ask(write_text("Anna sat on a mat."));
    ask(5000);
    return 0;
}

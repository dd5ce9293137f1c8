/* What the server of server.c offers to its callers, by two portals. */
#ifndef SERVER_H
#define SERVER_H

#include "nova.h"

/* The portals' entries. */
extern void server_open(void);
extern void server_count(void);

/* server_open makes the server ready to be given a page. It takes no words and answers none. */

/* server_count takes a text, as an item that delegates its page to read, and two words: the place of the text within the page and its length.
   It answers a word, how many of its characters are letters; or none, where no page came or the text reaches past it. */
enum { TEXT_PLACE = NOVA_DATA, TEXT_LENGTH = NOVA_DATA + 1, LETTERS = NOVA_DATA };

/* Where the server's stack ends. */
extern unsigned char *const server_stack_end;

#endif

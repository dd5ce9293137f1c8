/* Takes memory until it is refused, looks whether each block has kept its ends, gives all back, and takes it again. */
#include <errno.h>
#include <stdio.h>
#include <stdlib.h>

enum { BYTES = 1000 };

struct block {
    struct block *next;
    int number;
    char bytes[BYTES];
    int again;
};

static struct block *blocks;

static int take_all(void)
{
    int count = 0;

    errno = 0;
    for (struct block *block; (block = malloc(sizeof *block)); count++) {
        block->number = block->again = count;
        block->next = blocks;
        blocks = block;
    }
    return count;
}

/* Gives all back, and answers how many were right. */
static int give_all(int count)
{
    int right = 0;

    while (blocks) {
        struct block *next = blocks->next;

        count--;
        right += blocks->number == count && blocks->again == count;
        free(blocks);
        blocks = next;
    }
    return right;
}

int main(void)
{
    int count = take_all();
    int refused = errno == ENOMEM;
    int right = give_all(count);
    int again = take_all();

    again = give_all(again);
    printf("some: %d, refused: %d, right: %d, as many again: %d\n", count > 5, refused, right == count, again >= count - count / 10);
    return 0;
}

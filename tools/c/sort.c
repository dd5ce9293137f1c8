/* Sorts numbers in place and writes them. The data are changed, digits lie on the stack, and libgcc divides. */
#include "console.h"

static int numbers[] = {503, 87, -512, 61, 908, 170, -897, 275, 653, 426, -154, 509, 612, 677, -765, 703};

enum { COUNT = sizeof numbers / sizeof *numbers };

/* Insertion sort. */
static void sort(int *number, int count)
{
    for (int sorted = 1; sorted < count; sorted++) {
        int next = number[sorted];
        int place = sorted;

        for (; place > 0 && number[place - 1] > next; place--)
            number[place] = number[place - 1];
        number[place] = next;
    }
}

static void put_decimal(int number)
{
    unsigned rest = (unsigned)number;
    char digits[10];
    int count = 0;

    if (number < 0) {
        put_char('-');
        rest = -rest;
    }
    do {
        digits[count++] = '0' + rest % 10;
        rest /= 10;
    } while (rest != 0);
    while (count > 0)
        put_char(digits[--count]);
}

void main(void)
{
    sort(numbers, COUNT);
    for (int i = 0; i < COUNT; i++) {
        put_decimal(numbers[i]);
        put_char(i + 1 < COUNT ? ' ' : '\n');
    }
}

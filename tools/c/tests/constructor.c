/* Constructors run before main, by their priorities, and destructors and what atexit was given after it. */
#include <stdio.h>
#include <stdlib.h>

static int made;

static void __attribute__((constructor)) last(void)
{
    printf("last %d\n", ++made);
}

static void __attribute__((constructor(202))) second(void)
{
    printf("second %d\n", ++made);
}

static void __attribute__((constructor(201))) first(void)
{
    printf("first %d\n", ++made);
}

static void __attribute__((destructor)) gone(void)
{
    printf("gone %d\n", ++made);
    fflush(stdout);
}

static void at_exit(void)
{
    printf("at exit %d\n", ++made);
}

int main(void)
{
    atexit(at_exit);
    printf("main %d\n", ++made);
    exit(0);
}

/* Numbers are drawn, formatted, sorted and found again, by the C library: library ROUNDS. It ends with 42 where all were found. */
#include <stdio.h>
#include <stdlib.h>
#include <string.h>

#define COUNT 8

static unsigned drawn = 1;

static unsigned draw(void)
{
    drawn = drawn * 1103515245u + 12345u;
    return drawn >> 8;
}

static int by_text(const void *a, const void *b)
{
    return strcmp(a, b);
}

int main(int count, char **words)
{
    static char texts[COUNT][16];
    long rounds = count > 1 ? atol(words[1]) : 1, found = 0;
    for (long round = 0; round < rounds; round++) {
        for (int i = 0; i < COUNT; i++)
            snprintf(texts[i], sizeof texts[i], "%u", draw());
        char wanted[16];
        strcpy(wanted, texts[draw() % COUNT]);
        qsort(texts, COUNT, sizeof texts[0], by_text);
        found += bsearch(wanted, texts, COUNT, sizeof texts[0], by_text) != NULL;
    }
    return found == rounds ? 42 : 1;
}

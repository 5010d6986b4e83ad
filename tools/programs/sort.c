/* Drawn numbers and texts, sorted by qsort and found by bsearch. */
#include <stdio.h>
#include <stdlib.h>
#include <string.h>

#define COUNT 5000

static unsigned long long drawn = 88172645463325252ull;

static unsigned draw(void)
{
    drawn ^= drawn << 13;
    drawn ^= drawn >> 7;
    drawn ^= drawn << 17;
    return (unsigned)(drawn >> 32);
}

static int by_number(const void *a, const void *b)
{
    int x = *(const int *)a, y = *(const int *)b;
    return (x > y) - (x < y);
}

static int by_text(const void *a, const void *b)
{
    return strcmp(*(char *const *)a, *(char *const *)b);
}

int main(void)
{
    int *numbers = malloc(COUNT * sizeof *numbers);
    char **texts = malloc(COUNT * sizeof *texts);
    if (!numbers || !texts)
        return 1;
    for (int i = 0; i < COUNT; i++) {
        numbers[i] = (int)draw();
        texts[i] = malloc(24);
        if (!texts[i])
            return 1;
        snprintf(texts[i], 24, "%x-%d", draw() % 4096, i % 10);
    }
    int wanted = numbers[COUNT / 3];
    qsort(numbers, COUNT, sizeof *numbers, by_number);
    qsort(texts, COUNT, sizeof *texts, by_text);
    int *found = bsearch(&wanted, numbers, COUNT, sizeof *numbers, by_number);
    printf("%d %d %d\n", numbers[0], numbers[COUNT / 2], numbers[COUNT - 1]);
    printf("%s %s %s\n", texts[0], texts[COUNT / 2], texts[COUNT - 1]);
    printf("%d stands at %ld\n", wanted, found ? (long)(found - numbers) : -1L);
    for (int i = 0; i < COUNT; i++)
        free(texts[i]);
    free(texts);
    free(numbers);
    return 0;
}

/* Its arguments and an environment text, by printf. */
#include <stdio.h>
#include <stdlib.h>

int main(int count, char **words)
{
    printf("hello, %d word%s\n", count - 1, count == 2 ? "" : "s");
    for (int i = 1; i < count; i++)
        printf("%2d: %-8s|%08x\n", i, words[i], (unsigned)i * 2654435761u);
    const char *name = getenv("NAME");
    if (name)
        printf("for %s\n", name);
    return count - 1;
}

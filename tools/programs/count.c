/* Lines, words and bytes of the input are counted, and each word once with its number is written to a file: count NAME */
#include <ctype.h>
#include <stdio.h>
#include <stdlib.h>
#include <string.h>

struct word {
    char *text;
    int count;
};

static int by_count(const void *a, const void *b)
{
    const struct word *x = a, *y = b;
    return x->count != y->count ? y->count - x->count : strcmp(x->text, y->text);
}

static struct word *words;
static size_t held, room;

static void add(const char *text)
{
    for (size_t i = 0; i < held; i++)
        if (strcmp(words[i].text, text) == 0) {
            words[i].count++;
            return;
        }
    if (held == room) {
        room = room ? 2 * room : 16;
        words = realloc(words, room * sizeof *words);
        if (!words)
            exit(3);
    }
    words[held].text = strdup(text);
    words[held++].count = 1;
}

int main(int count, char **names)
{
    char text[64];
    size_t len = 0, lines = 0, seen = 0, bytes = 0;
    int c;
    do {
        c = getchar();
        bytes += c != EOF;
        lines += c == '\n';
        if (c != EOF && isalpha(c) && len < sizeof text - 1) {
            text[len++] = (char)tolower(c);
        } else if (len) {
            text[len] = 0;
            add(text);
            seen++;
            len = 0;
        }
    } while (c != EOF);
    fprintf(stderr, "%zu %zu %zu\n", lines, seen, bytes);
    if (count < 2)
        return 0;
    FILE *file = fopen(names[1], "w");
    if (!file) {
        perror(names[1]);
        return 1;
    }
    qsort(words, held, sizeof *words, by_count);
    for (size_t i = 0; i < held; i++)
        fprintf(file, "%5d %s\n", words[i].count, words[i].text);
    return fclose(file) ? 1 : 0;
}

/* The library's string and memory routines over drawn lengths and alignments. */
#include <stdio.h>
#include <string.h>

#define ROUNDS 3000
#define ROOM 1200

static unsigned drawn = 1;

static unsigned draw(unsigned below)
{
    drawn = drawn * 1103515245u + 12345u;
    return (drawn >> 8) % below;
}

static int sign(int n)
{
    return (n > 0) - (n < 0);
}

int main(void)
{
    static char from[ROOM + 64], to[ROOM + 64];
    unsigned long sum = 0;
    for (int round = 0; round < ROUNDS; round++) {
        unsigned at = draw(64), into = draw(64), len = draw(ROOM - 1);
        memset(from + at, 'a' + (int)draw(20), len);
        from[at + len] = 0;
        if (len)
            from[at + draw(len)] = 'z';
        sum = sum * 31 + strlen(from + at);
        memcpy(to + into, from + at, len + 1);
        sum = sum * 31 + (unsigned)(sign(strcmp(to + into, from + at)) + 1);
        char *z = strchr(to + into, 'z');
        sum = sum * 31 + (unsigned long)(z ? z - (to + into) : -1);
        if (len > 2) {
            to[into + draw(len)] ^= 1;
            sum = sum * 31 + (unsigned)(sign(memcmp(to + into, from + at, len)) + 1);
            memmove(to + into + 1, to + into, len - 1);
            sum = sum * 31 + (unsigned char)to[into + len / 2];
        }
    }
    printf("%016lx\n", sum);
    return 0;
}

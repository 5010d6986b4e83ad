/* Loops over whole numbers of each width, which a compiler makes vector code of. */
#include <stdint.h>
#include <stdio.h>

#define COUNT 4099

static int8_t bytes[COUNT];
static uint16_t halves[COUNT];
static int32_t words[COUNT], others[COUNT];
static uint64_t longs[COUNT];

int main(void)
{
    uint32_t drawn = 12345;
    for (int i = 0; i < COUNT; i++) {
        drawn = drawn * 1664525u + 1013904223u;
        bytes[i] = (int8_t)(drawn >> 24);
        halves[i] = (uint16_t)(drawn >> 9);
        words[i] = (int32_t)drawn;
        others[(i * 7) % COUNT] = (int32_t)(drawn ^ drawn << 5);
        longs[i] = (uint64_t)drawn << 17 ^ drawn;
    }
    int32_t sum = 0, most = INT32_MIN, even = 0, dot = 0;
    uint64_t product = 0, widest = 0;
    for (int i = 0; i < COUNT; i++) {
        sum += bytes[i] * halves[i];
        most = words[i] > most ? words[i] : most;
        even += words[i] % 2 == 0;
        dot += words[i] * others[i];
        widest = longs[i] > widest ? longs[i] : widest;
        product += (uint64_t)(uint32_t)words[i] * (uint32_t)others[i];
    }
    for (int i = 0; i < COUNT; i++) {
        words[i] = others[i] > 0 ? words[i] - others[i] : words[i] + (others[i] >> 3);
        halves[i] = (uint16_t)(halves[i] >> (i % 16) | bytes[i]);
        bytes[i] = (int8_t)(bytes[i] < 0 ? -bytes[i] : bytes[i]);
    }
    uint32_t mixed = 0;
    for (int i = 0; i < COUNT; i++)
        mixed = mixed * 31 + (uint32_t)words[i] + halves[i] + (uint32_t)bytes[i];
    printf("%d %d %d %d %llu %llu %08x\n", sum, most, even, dot, (unsigned long long)product, (unsigned long long)widest, mixed);
    return 0;
}

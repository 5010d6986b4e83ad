/* Prints the guest's words and its environment, a line each, with the length of each, and then how many bytes they have in all.

   Lengths are found 32 bytes at a time, by aligned loads of AVX2. The labels are a table of pointers, the line is put together in
   bytes that the file doesn't have, and there is no C library: build makes it by gcc -nostdlib -static. */
#include <immintrin.h>
#include <stddef.h>
#include <stdint.h>

static const char *const volatile labels[] = {"word ", "text "}; /* pointers at rest: the linker wrote them */
static unsigned total = 0x1000;                          /* in the data, as the file has it */
static char line[64];                                    /* behind the file's bytes: zeros */
static size_t used;

static long call(long number, long first, long second, long third)
{
    long answer;
    __asm__ volatile("syscall" : "=a"(answer) : "a"(number), "D"(first), "S"(second), "d"(third) : "rcx", "r11", "memory");
    return answer;
}

/* The bytes of a text before its 0. A load never passes into a page in which the text has no byte. */
static size_t length(const char *text)
{
    const char *block = (const char *)((uintptr_t)text & -32);
    unsigned ahead = (uintptr_t)text % 32;
    const __m256i zero = _mm256_setzero_si256();
    unsigned mask = (unsigned)_mm256_movemask_epi8(_mm256_cmpeq_epi8(_mm256_load_si256((const __m256i *)block), zero)) >> ahead;
    if (mask != 0)
        return (size_t)__builtin_ctz(mask);
    do {
        block += 32;
        mask = (unsigned)_mm256_movemask_epi8(_mm256_cmpeq_epi8(_mm256_load_si256((const __m256i *)block), zero));
    } while (mask == 0);
    return (size_t)(block - text) + (size_t)__builtin_ctz(mask);
}

static void put(const char *text)
{
    while (*text != 0 && used < sizeof line)
        line[used++] = *text++;
}

static void put_number(unsigned number)
{
    char digits[11];
    char *first = digits + 10;
    *first = 0;
    do
        *--first = (char)('0' + number % 10);
    while ((number /= 10) != 0);
    put(first);
}

static void end_line(void)
{
    put("\n");
    call(1, 1, (long)line, (long)used);
    used = 0;
}

static void show(int label, const char *text)
{
    size_t bytes = length(text);
    total += (unsigned)bytes;
    put(labels[label]);
    put_number((unsigned)bytes);
    put(": ");
    call(1, 1, (long)line, (long)used);
    used = 0;
    call(1, 1, (long)text, (long)bytes);
    end_line();
}

__attribute__((noreturn, used)) static void start(long *stack)
{
    char **words = (char **)(stack + 1);
    char **texts = words + stack[0] + 1;
    for (; *words != NULL; ++words)
        show(0, *words);
    for (; *texts != NULL; ++texts)
        show(1, *texts);
    put("bytes ");
    put_number(total - 0x1000);
    end_line();
    call(60, stack[0] - 1, 0, 0);
    __builtin_unreachable();
}

__asm__(".globl _start\n"
        "_start:\n"
        "    mov %rsp, %rdi\n"
        "    and $-16, %rsp\n"
        "    call start\n");

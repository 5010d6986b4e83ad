/* A static program that may stand anywhere (static-pie): it moves its own pointers to where it was loaded, and then prints the names
   that they are of, in the order of a table.

   Each entry of its table of relocations (Elf64_Rela, R_X86_64_RELATIVE) says where a pointer stands and how far behind the program's
   start its target does (System V ABI for AMD64, 4.4.1). build makes it by gcc -nostdlib -static-pie. */
#include <elf.h>
#include <stddef.h>

struct entry {
    const char *name;
    const struct entry *next;
};

static const struct entry third = {"and runs where it stands\n", NULL};
static const struct entry second = {"moves its pointers ", &third};
static const struct entry first = {"a program that ", &second};
static const struct entry *volatile list = &first;

extern const Elf64_Dyn _DYNAMIC[] __attribute__((visibility("hidden")));
extern const Elf64_Ehdr __ehdr_start __attribute__((visibility("hidden")));

static long call(long number, long one, long two, long three)
{
    long answer;
    __asm__ volatile("syscall" : "=a"(answer) : "a"(number), "D"(one), "S"(two), "d"(three) : "rcx", "r11", "memory");
    return answer;
}

static long length(const char *text)
{
    long bytes = 0;
    while (text[bytes] != 0)
        ++bytes;
    return bytes;
}

static void relocate(char *base)
{
    const Elf64_Rela *relocation = NULL;
    size_t size = 0;
    for (const Elf64_Dyn *item = _DYNAMIC; item->d_tag != DT_NULL; ++item) {
        if (item->d_tag == DT_RELA)
            relocation = (const Elf64_Rela *)(base + item->d_un.d_ptr);
        if (item->d_tag == DT_RELASZ)
            size = item->d_un.d_val;
    }
    for (; size >= sizeof *relocation; size -= sizeof *relocation, ++relocation)
        if (ELF64_R_TYPE(relocation->r_info) == R_X86_64_RELATIVE)
            *(char **)(base + relocation->r_offset) = base + relocation->r_addend;
}

__attribute__((noreturn, used)) static void start(void)
{
    relocate((char *)&__ehdr_start);
    for (const struct entry *item = list; item != NULL; item = item->next)
        call(1, 1, (long)item->name, length(item->name));
    call(60, 0, 0, 0);
    __builtin_unreachable();
}

__asm__(".globl _start\n"
        "_start:\n"
        "    and $-16, %rsp\n"
        "    call start\n");

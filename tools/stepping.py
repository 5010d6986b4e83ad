"""Takes instructions on this machine's processor, by single steps of a traced process (ptrace).

A start is where an instruction begins: registers, flags, its bytes, and a few bytes that are put into memory. An end is
where it got to: how it ended, registers, flags, MXCSR, the instruction pointer and the bytes that changed.

Memory is two pages, one of code (read and execute) and one of data. In one world the page of data is writable (read and
write), in the other it isn't (read and execute, too). FS and GS have base 0, as in a program that sets none.
"""
import dataclasses
import struct
import subprocess

PAGE = 4096
FLAGS = 0xCD5       # CF, PF, AF, ZF, SF, DF and OF: the flags that instructions change
ALWAYS = 0x202      # the two bits that always read as 1 in a program
MXCSR = 0x1F80      # its value in a program that sets none


@dataclasses.dataclass
class Start:
    """Where an instruction begins. `steps`: how many steps are taken at most, while it repeats itself."""
    code: bytes
    registers: list
    flags: int = 1
    put_at: int = 0
    put: bytes = b""
    writable: bool = True
    steps: int = 1
    mxcsr: int = MXCSR

    def record(self):
        return struct.pack("<16QQQ16s24sBBBBI", *self.registers, self.flags, self.put_at, self.put, self.code,
                           len(self.put), len(self.code), self.writable, self.steps, self.mxcsr)


@dataclasses.dataclass
class End:
    """Where an instruction got to. `how`: done, or the exception in lower case (de bp ud gp ss pf); `at`: the address of a
    page fault. `registers` and `memory` have what changed."""
    how: str
    at: int
    rip: int
    flags: int
    mxcsr: int
    registers: dict
    memory: dict

    @staticmethod
    def read(line):
        """An end from a line that a program prints: how, at, rip, flags and MXCSR, then NUMBER=VALUE of each register that
        changed, and @ADDRESS=BYTE of each byte, all in hexadecimal."""
        how, at, rip, flags, mxcsr, *changes = line.split()
        registers, memory = {}, {}
        for change in changes:
            place, value = change.split("=")
            if place[0] == "@":
                memory[int(place[1:], 16)] = int(value, 16)
            else:
                registers[int(place, 16)] = int(value, 16)
        return End(how, int(at, 16), int(rip, 16), int(flags, 16), int(mxcsr, 16), registers, memory)


@dataclasses.dataclass
class Places:
    """Where the pages are, and the instruction."""
    code: int
    data: int
    instruction: int


def data_byte(offset):
    """The data page, before a start puts its bytes there."""
    return (offset * 7 + 1) % 256


def byte_before(places, start, at):
    """The byte at an address of the data page, at a start."""
    if start.put_at <= at < start.put_at + len(start.put):
        return start.put[at - start.put_at]
    return data_byte(at - places.data)


def drop_trap_flag(places, start, end):
    """What PUSHF stores has the trap flag under single steps: takes it out of an end."""
    at = end.registers.get(4, 0) + 1
    if end.how != "done" or not places.data <= at < places.data + PAGE:
        return
    before = byte_before(places, start, at)
    stored = end.memory.pop(at, before) & 0xFE
    if stored != before:
        end.memory[at] = stored


SOURCE = r"""
#include <signal.h>
#include <stdint.h>
#include <stdio.h>
#include <stdlib.h>
#include <string.h>
#include <sys/mman.h>
#include <sys/ptrace.h>
#include <sys/uio.h>
#include <sys/user.h>
#include <sys/wait.h>
#include <unistd.h>

enum { PAGE = 4096, FLAGS = 0xCD5, ALWAYS = 0x202 };

struct start {
    uint64_t registers[16], flags, put_at;
    uint8_t put[16], code[24], put_len, code_len, writable, steps;
    uint32_t mxcsr;
};

static uint64_t code_page, data_page, instruction;
static uint8_t base[PAGE];

static void fail(const char *what) { perror(what); exit(2); }

static unsigned long long *slot(struct user_regs_struct *r, int n) {
    unsigned long long *slots[16] = {&r->rax, &r->rcx, &r->rdx, &r->rbx, &r->rsp, &r->rbp, &r->rsi, &r->rdi,
                                     &r->r8, &r->r9, &r->r10, &r->r11, &r->r12, &r->r13, &r->r14, &r->r15};
    return slots[n];
}

/* A stopped process with the two pages. */
static pid_t world(int code, int data) {
    pid_t child = fork();
    if (child < 0) fail("fork");
    if (child == 0) {
        int how = MAP_PRIVATE | MAP_ANONYMOUS | MAP_FIXED_NOREPLACE;
        if (mmap((void *)code_page, PAGE, code, how, -1, 0) != (void *)code_page) fail("mmap");
        if (mmap((void *)data_page, PAGE, data, how, -1, 0) != (void *)data_page) fail("mmap");
        if (ptrace(PTRACE_TRACEME, 0, 0, 0)) fail("ptrace");
        raise(SIGSTOP);
        _exit(0);
    }
    int status;
    waitpid(child, &status, 0);
    if (!WIFSTOPPED(status)) fail("the traced process ended");
    ptrace(PTRACE_SETOPTIONS, child, 0, PTRACE_O_EXITKILL);
    return child;
}

/* Bytes to memory, whatever its permissions. */
static void poke(pid_t child, uint64_t at, const uint8_t *bytes, size_t len) {
    for (size_t k = 0; k < len; k += 8) {
        uint64_t word = 0;
        memcpy(&word, bytes + k, 8);
        if (ptrace(PTRACE_POKEDATA, child, at + k, word)) fail("poke");
    }
}

static void peek_page(pid_t child, uint64_t at, uint8_t *into) {
    struct iovec here = {into, PAGE}, there = {(void *)at, PAGE};
    if (process_vm_readv(child, &here, 1, &there, 1, 0) != PAGE) fail("peek");
}

/* What the data page holds before the instruction. */
static void fill(const struct start *s, uint8_t *page) {
    memcpy(page, base, PAGE);
    for (int k = 0; k < s->put_len; k++) {
        uint64_t at = s->put_at + k - data_page;
        if (at < PAGE) page[at] = s->put[k];
    }
}

static void begin(pid_t child, const struct start *s, const uint8_t *page, uint8_t *held, struct user_regs_struct *r) {
    for (int k = 0; k < PAGE; k += 8)
        if (memcmp(held + k, page + k, 8)) poke(child, data_page + k, page + k, 8);
    uint8_t code[24];
    memcpy(code, s->code, 24);
    memset(code + s->code_len, 0xCC, 24 - s->code_len);
    poke(child, instruction, code, 24);
    if (ptrace(PTRACE_GETREGS, child, 0, r)) fail("registers");
    for (int n = 0; n < 16; n++) *slot(r, n) = s->registers[n];
    r->eflags = s->flags | ALWAYS;
    r->rip = instruction;
    r->orig_rax = -1;
    r->fs_base = r->gs_base = 0;
    if (ptrace(PTRACE_SETREGS, child, 0, r)) fail("registers");
    struct user_fpregs_struct vectors;
    if (ptrace(PTRACE_GETFPREGS, child, 0, &vectors)) fail("MXCSR");
    vectors.mxcsr = s->mxcsr;
    if (ptrace(PTRACE_SETFPREGS, child, 0, &vectors)) fail("MXCSR");
}

/* How a step ended. */
static const char *ending(pid_t child, int status, uint64_t *at) {
    siginfo_t info;
    if (!WIFSTOPPED(status) || ptrace(PTRACE_GETSIGINFO, child, 0, &info)) fail("the traced process ended");
    *at = 0;
    switch (info.si_signo) {
    case SIGTRAP: return info.si_code == SI_KERNEL ? "bp" : "done";
    case SIGFPE: return "de";
    case SIGILL: return "ud";
    case SIGBUS: return "ss";
    case SIGSEGV:
        if (info.si_code == SI_KERNEL) return "gp";
        *at = (uint64_t)info.si_addr;
        return "pf";
    }
    return "other";
}

static void answer(pid_t child, const struct start *s, uint8_t *held) {
    struct user_regs_struct r;
    struct user_fpregs_struct vectors;
    uint8_t page[PAGE];
    uint64_t at;
    const char *how;
    fill(s, page);
    begin(child, s, page, held, &r);
    int steps = 0;
    do {
        int status;
        if (ptrace(PTRACE_SINGLESTEP, child, 0, 0)) fail("step");
        waitpid(child, &status, 0);
        how = ending(child, status, &at);
        if (ptrace(PTRACE_GETREGS, child, 0, &r)) fail("registers");
        steps++;
    } while (steps < s->steps && !strcmp(how, "done") && r.rip == instruction);
    peek_page(child, data_page, held);
    if (ptrace(PTRACE_GETFPREGS, child, 0, &vectors)) fail("MXCSR");
    printf("%s %llx %llx %llx %x", how, (unsigned long long)at, r.rip, (r.eflags & FLAGS) | ALWAYS, vectors.mxcsr);
    for (int n = 0; n < 16; n++)
        if (*slot(&r, n) != s->registers[n]) printf(" %x=%llx", n, *slot(&r, n));
    for (int k = 0; k < PAGE; k++)
        if (held[k] != page[k]) printf(" @%llx=%x", (unsigned long long)data_page + k, held[k]);
    puts("");
}

int main(int count, char **words) {
    if (count != 4) return 2;
    code_page = strtoull(words[1], 0, 16);
    data_page = strtoull(words[2], 0, 16);
    instruction = strtoull(words[3], 0, 16);
    for (int k = 0; k < PAGE; k++) base[k] = k * 7 + 1;
    pid_t worlds[2] = {world(5, 5), world(5, 3)};
    static uint8_t held[2][PAGE];
    struct start s;
    while (fread(&s, sizeof s, 1, stdin) == 1) answer(worlds[s.writable != 0], &s, held[s.writable != 0]);
    kill(worlds[0], SIGKILL);
    kill(worlds[1], SIGKILL);
    return 0;
}
"""


def step(folder, places, starts):
    """The ends of these starts on this machine's processor."""
    source, program = folder / "step.c", folder / "step"
    source.write_text(SOURCE)
    subprocess.run(["gcc", "-O1", "-w", "-o", str(program), str(source)], check=True)
    words = [str(program), f"{places.code:x}", f"{places.data:x}", f"{places.instruction:x}"]
    done = subprocess.run(words, check=True, capture_output=True, input=b"".join(start.record() for start in starts))
    return [End.read(line) for line in done.stdout.decode().splitlines()]

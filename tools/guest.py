"""Makes program files that take one instruction and check what it left.

A file is one segment, read and execute, at 400000H: a page that loads flags and registers, goes to the instruction, and checks
all flags that are defined and all registers against what a processor left; the page of the instruction; and the data page.
Its exit status is 0, or says what was wrong (see WRONG). The file runs on a processor, too.
"""
import struct

import drawing
import stepping

BASE = 0x400000
DATA = bytes(stepping.data_byte(k) for k in range(stepping.PAGE))
ENTRY = BASE + 120
NUMBERS = BASE + 0x700      # the flags word, then what each register should be
CHECKS = drawing.CHECKS
STUBS = BASE + 0xC00        # for each exit status so many bytes that set it
STUB = 16
EXIT = BASE + 0xF00
SIGNALS = {"de": 8, "bp": 5, "ud": 4, "gp": 11, "pf": 11, "ss": 7}

FLAGS_WRONG, RCX_WRONG, AF_WRONG, DF_WRONG, REGISTERS_WRONG = 1, 2, 3, 4, 16
WRONG = {FLAGS_WRONG: "CF, PF, ZF, SF or OF", RCX_WRONG: "register 1", AF_WRONG: "AF", DF_WRONG: "DF",
         **{REGISTERS_WRONG + n: f"register {n}" for n in range(16)}}
CONDITIONS = {drawing.OF: 0, drawing.CF: 2, drawing.ZF: 4, drawing.SF: 8, drawing.PF: 10}


class Code:
    """Machine code from an address up."""

    def __init__(self, at):
        self.start, self.bytes = at, b""

    @property
    def at(self):
        return self.start + len(self.bytes)

    def add(self, code, *numbers):
        """Bytes in hexadecimal, then numbers of 32 bits."""
        self.bytes += bytes.fromhex(code) + b"".join((n % 2**32).to_bytes(4, "little") for n in numbers)

    def to(self, code, target):
        """The same with a distance to a target."""
        self.add(code, target - self.at - len(bytes.fromhex(code)) - 4)


def stub(status):
    return STUBS + STUB * status


def prologue(start):
    code = Code(ENTRY)
    code.add("bc", NUMBERS)                     # mov esp, NUMBERS
    code.add("9d")                              # popfq
    for n in range(16):                         # mov register, number
        code.add(f"{0x48 + n // 8:x}{0xB8 + n % 8:x}", start.registers[n], start.registers[n] >> 32)
    code.to("e9", drawing.PLACES.instruction)   # jmp
    return code


def check_rcx(code, wanted):
    """Whether rcx is a number, with no flag changed: each half is brought to 0."""
    low = wanted % 2**32
    rest = wanted - low + (2**32 if low > 2**31 else 0)     # what the first LEA leaves, but for bits above 63
    swapped = int.from_bytes((rest >> 32 & 0xFFFFFFFF).to_bytes(4, "big"), "little")
    for number in (low, swapped):
        code.add("488d89", -number)             # lea rcx, [rcx - number]
        code.add("67e305")                      # jecxz behind the next
        code.to("e9", stub(RCX_WRONG))          # jmp
        code.add("480fc9")                      # bswap rcx


def checks(draw, end):
    start, undefined = draw.start, draw.undefined
    code = Code(CHECKS)
    for flag, condition in CONDITIONS.items():
        if not undefined & flag:                # jump where the flag isn't as it should be
            code.to(f"0f{0x80 + condition + bool(end.flags & flag):x}", stub(FLAGS_WRONG))
    check_rcx(code, end.registers.get(1, start.registers[1]))
    code.add("4889c1")                          # mov rcx, rax
    if not undefined & drawing.AF:
        code.add("9ff6c410")                    # lahf; test ah, 16
        code.to("0f84" if end.flags & drawing.AF else "0f85", stub(AF_WRONG))
    for n in range(16):                         # cmp register, its number; jne
        if n == 1:
            continue
        register = 1 if n == 0 else n
        code.to(f"{0x48 + (register // 8) * 4:x}3b{5 + (register % 8) * 8:02x}", NUMBERS + 8 + 8 * n)
        code.to("0f85", stub(REGISTERS_WRONG + n))
    code.add("be", NUMBERS)                     # mov esi, NUMBERS
    code.add("ac")                              # lodsb
    code.add("81fe", NUMBERS + (-1 if end.flags & drawing.DF else 1))
    code.to("0f85", stub(DF_WRONG))             # jne
    code.add("31ff")                            # xor edi, edi
    code.to("e9", EXIT)
    return code


def stubs():
    code = Code(EXIT)
    code.add("b8", 60)                          # mov eax, 60
    code.add("0f05")                            # syscall
    yield code
    for status in WRONG:
        code = Code(stub(status))
        code.add("bf", status)                  # mov edi, status
        code.to("e9", EXIT)
        yield code


def goes_on(end):
    """Whether the guest is on the page of its instruction then."""
    return end.how == "done" and drawing.PLACES.code <= end.rip < drawing.PLACES.data


def wanted_status(draw, end):
    """The status that a guest should end with, by what the processor did, or None where it can't be said: the instruction
    repeats itself, or goes to where the guest has something else, or misses the page before its own."""
    if end.how == "pf" and BASE <= end.at < drawing.PLACES.code:
        return None
    if end.how != "done":
        return 128 + SIGNALS[end.how]
    if goes_on(end):
        away = end.rip - drawing.PLACES.instruction
        has_room = not -5 < away < 20 and end.rip + 5 <= drawing.PLACES.data
        return 0 if away == draw.length or has_room else None
    return None if BASE <= end.rip < drawing.PLACES.data + stepping.PAGE else 128 + SIGNALS["pf"]


def image(draw, end):
    """A file whose guest takes a drawn instruction, and should get to `end`."""
    start, places, size = draw.start, drawing.PLACES, 0x3000
    held = bytearray(size)
    put(held, BASE, struct.pack("<16sHHIQQQIHHHHHH", b"\x7fELF\x02\x01\x01", 2, 62, 1, ENTRY, 64, 0, 0, 64, 56, 1, 0, 0, 0)
        + struct.pack("<IIQQQQQQ", 1, 5, 0, BASE, BASE, size, size, 4096))
    put(held, NUMBERS, (start.flags | stepping.ALWAYS).to_bytes(8, "little"))
    for n in range(16):
        put(held, NUMBERS + 8 + 8 * n, end.registers.get(n, start.registers[n]).to_bytes(8, "little"))
    for code in (prologue(start), checks(draw, end), *stubs()):
        put(held, code.start, code.bytes)
    put(held, places.data, DATA)
    for k, byte in enumerate(start.put):
        if places.data <= start.put_at + k < places.data + stepping.PAGE:
            put(held, start.put_at + k, bytes([byte]))
    put(held, places.instruction, start.code)
    if goes_on(end) and end.rip != places.instruction + draw.length:
        put(held, places.instruction + draw.length, b"\xcc" * 5)    # only there the checks may be reached
        put(held, end.rip, drawing.jump_to_checks(end.rip))
    return bytes(held)


def put(held, at, code):
    held[at - BASE:at - BASE + len(code)] = code

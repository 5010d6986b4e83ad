"""Draws instructions of the row table, each with registers, flags and bytes in memory to begin with."""
import dataclasses
import pathlib

import listing
import stepping

PLACES = stepping.Places(code=0x401000, data=0x402000, instruction=0x401800)
CHECKS = 0x400800       # where a guest that checks itself goes on (see guest.py)
RAX, RCX, RDX, RSP, RBP, RSI, RDI = 0, 1, 2, 4, 5, 6, 7
CF, PF, AF, ZF, SF, DF, OF = 1, 4, 16, 64, 128, 0x400, 0x800

# A system call's answer is the kernel's, and the numbers of RDTSC, CPUID and XGETBV are the program's own (docs/DECISIONS.md).
LEFT_OUT = ("Syscall", "Rdtsc", "Cpuid", "Xgetbv")

# What a processor needs to have, in Linux's words, for the rows of a level above the first.
FEATURES = {"Movbe": "movbe", "Tzcnt": "bmi1", "Lzcnt": "abm", "Adcx": "adx", "Adox": "adx",
            **dict.fromkeys(("Andn", "Bextr", "Blsi", "Blsmsk", "Blsr"), "bmi1"),
            **dict.fromkeys(("Bzhi", "Mulx", "Pdep", "Pext", "Rorx", "Sarx", "Shlx", "Shrx"), "bmi2")}

# How many bytes an immediate has: z and v are those of the operand size, a those of an address.
IMMEDIATES = {"AlIb": "1", "RaxIz": "z", "Iz": "z", "GvEvIz": "z", "Ib": "1", "GvEvIb": "1", "Jb": "1", "EbIb": "1", "EvIz": "z",
              "EvIb": "1", "AlOb": "a", "RaxOv": "a", "ObAl": "a", "OvRax": "a", "OpcodeRegIb": "1", "OpcodeRegIv": "v",
              "Iw": "2", "Jz": "4", "EvGvIb": "1", "GyEyIb": "1"}
WITHOUT_MODRM = ("AlIb RaxIz OpcodeReg Iz Ib Jb RaxOpcodeReg Implied AlOb RaxOv ObAl OvRax OpcodeRegIb OpcodeRegIv Iw "
                 "Jz").split()

STACK = ("Push", "Pop", "Pushf", "Popf", "Call", "Ret")
STRINGS = ("Movs", "Cmps", "Stos", "Lods", "Scas")
LOOPS = ("Loop", "Loope", "Loopne", "Jrcxz")
SHIFTS = ("Rol", "Ror", "Rcl", "Rcr", "Shl", "Shr", "Sar")
DOUBLE_SHIFTS = ("Shld", "Shrd")
BIT_TESTS = ("Bt", "Bts", "Btr", "Btc")

# The flags that an operation leaves undefined, whatever its operands (Intel SDM volume 2, "Flags Affected").
UNDEFINED = {
    "And": AF, "Or": AF, "Xor": AF, "Test": AF,
    "Mul": SF | ZF | AF | PF, "Imul": SF | ZF | AF | PF,
    "Div": CF | OF | SF | ZF | AF | PF, "Idiv": CF | OF | SF | ZF | AF | PF,
    "Bt": OF | SF | AF | PF, "Bts": OF | SF | AF | PF, "Btr": OF | SF | AF | PF, "Btc": OF | SF | AF | PF,
    "Bsf": CF | OF | SF | AF | PF, "Bsr": CF | OF | SF | AF | PF,
    "Tzcnt": OF | SF | AF | PF, "Lzcnt": OF | SF | AF | PF,
    "Andn": AF | PF, "Blsr": AF | PF, "Blsmsk": AF | PF, "Blsi": AF | PF, "Bzhi": AF | PF, "Bextr": SF | AF | PF,
}

# Prefixes that change no operation, and how often each is drawn.
OTHER_PREFIXES = ((0x67, .12), (0x64, .05), (0x65, .05), (0x2E, .02), (0x3E, .02), (0x26, .01), (0x36, .01))


def jump_to_checks(at):
    """JMP from an address to the checks of a guest."""
    return b"\xe9" + (CHECKS - at - 5).to_bytes(4, "little", signed=True)


@dataclasses.dataclass
class Draw:
    """A drawn instruction: its row, its parts, and where it begins. A jump to a guest's checks stands behind it."""
    row: listing.Row
    head: listing.Head
    immediate: int
    length: int
    start: stepping.Start

    @property
    def front(self):
        return self.head.front

    @property
    def size(self):
        """The operand size in bits, by the row or by the prefixes."""
        return self.row.width or (64 if self.head.w else 16 if 0x66 in self.front else 32)

    @property
    def repeats(self):
        """Whether a string instruction is repeated."""
        return self.row.op in STRINGS and (0xF2 in self.front or 0xF3 in self.front)

    @property
    def count(self):
        """The masked count of a shift."""
        operands = self.row.operands
        count = 1 if operands.endswith("One") else self.start.registers[RCX] if operands.endswith("Cl") else self.immediate
        return count & (63 if self.size == 64 else 31)

    @property
    def undefined(self):
        """The flags that the instruction leaves undefined."""
        if self.row.op in SHIFTS + DOUBLE_SHIFTS:
            return undefined_of_shift(self.row.op, self.count, self.size)
        return UNDEFINED.get(self.row.op, 0)

    def __str__(self):
        return f"{self.row.op} {self.start.code[:self.length].hex(' ')}"


def undefined_of_shift(op, count, size):
    """Those of shifts and rotates: none by 0, OF by more than 1, AF but for rotates, and CF by the width or more."""
    if count == 0:
        return 0
    if op in DOUBLE_SHIFTS and count > size:
        return CF | OF | SF | ZF | AF | PF
    return ((OF if count != 1 else 0) | (AF if op[0] == "S" else 0)
            | (CF if op in ("Shl", "Shr") and count >= size else 0))


def number(pick):
    """A number of 64 bits, with the places where results turn drawn more often."""
    kind = pick.randrange(8)
    if kind < 4:
        return pick.getrandbits(64)
    if kind == 4:
        return pick.choice([0, 1, 2**63, 2**64 - 1, 2**63 - 1, 2**31, 2**32 - 1, 2**31 - 1, 0x80, 0x7F, 0xFF, 0x8000, 0xFFFF])
    if kind == 5:
        return pick.getrandbits(8)
    if kind == 6:
        return pick.getrandbits(32)
    return 2**64 - 1 - pick.getrandbits(9)


def prefixes(pick, row):
    """Legacy prefixes in some order, then perhaps REX; now and then REX stands before them, where it doesn't count."""
    legacy = [byte for byte, part in ((0x66, .25), *OTHER_PREFIXES) if pick.random() < part]
    if row.op in STRINGS:
        legacy += pick.choice([[], [0xF2], [0xF3], [0xF3]])
    elif pick.random() < .03:
        legacy.append(pick.choice([0xF2, 0xF3]))
    if pick.random() < (.25 if row.op in listing.LOCKS else .01):
        legacy.append(0xF0)
    if row.mark not in ("-", "NP"):
        legacy.append(int(row.mark, 16))
    legacy = list(dict.fromkeys(legacy))
    pick.shuffle(legacy)
    rex = pick.getrandbits(4) | 0x40
    if row.w != "-":
        rex = rex & ~8 | int(row.w) << 3
    has_rex = row.w == "1" or pick.random() < .6
    if has_rex and pick.random() < .03:
        return bytes([rex] + legacy)
    return bytes(legacy + [rex] * has_rex)


def prefixes_before_vex(pick):
    """Legacy prefixes in some order; now and then one of those with which VEX is undefined, or REX."""
    legacy = [byte for byte, part in OTHER_PREFIXES if pick.random() < part]
    if pick.random() < .03:
        legacy.append(pick.choice([0x66, 0xF2, 0xF3, 0xF0, 0x40 | pick.getrandbits(4)]))
    pick.shuffle(legacy)
    return bytes(legacy)


def vex(pick, row):
    """VEX as a row has it, mostly of two bytes where these suffice; now and then with a length that the row doesn't take, or with a
    register in a vvvv that isn't used, which are undefined."""
    length = pick.choice([n for n in range(2) if listing.taken_lengths(row) >> n & 1]) ^ (pick.random() < .02)
    has_vvvv = listing.names_vvvv(row) or pick.random() < .03
    inverted = ~(pick.getrandbits(4) if has_vvvv else 0) & 15
    w = pick.getrandbits(1) if row.w == "-" else int(row.w)
    high = pick.getrandbits(3) | pick.choice([0, 3])
    low = inverted << 3 | length << 2 | listing.MARKS.index(row.mark)
    if row.map == 1 and high & 3 == 3 and w == 0 and pick.random() < .8:
        return bytes([0xC5, high >> 2 << 7 | low])
    return bytes([0xC4, high << 5 | row.map, w << 7 | low])


def drawn_modrm(pick, row):
    modrm = pick.getrandbits(8) | (0xC0 if pick.random() < .4 else 0)
    if row.digit != "-":
        modrm = modrm & 0xC7 | int(row.digit) << 3
    if row.operands in listing.MEMORY_ONLY:
        return modrm & 0x3F | pick.choice([0, 0x40, 0x80])
    return modrm | (0xC0 if row.operands in listing.REGISTER_ONLY else 0)


def immediate_size(operands, head):
    kind = IMMEDIATES.get(operands, "0")
    narrow = 0x66 in head.front and not head.w
    sizes = {"z": 2 if narrow else 4, "v": 8 if head.w else 2 if narrow else 4, "a": 4 if 0x67 in head.front else 8}
    return sizes[kind] if kind in sizes else int(kind)


class Drawing:
    """One draw in the making: its first bytes with the opcode, its row and what stands in registers."""

    def __init__(self, pick, table, row):
        self.pick = pick
        if row.kind == "vex":
            lead = prefixes_before_vex(pick) + vex(pick, row)
        else:
            lead = prefixes(pick, row) + listing.ESCAPES[row.map]
        self.lead = lead + bytes([row.opcode])
        self.modrm = drawn_modrm(pick, row)
        self.head = listing.read(self.lead + bytes([self.modrm]))
        self.row = listing.matched(table, self.head) or (row if row.kind == "vex" else None)
        self.registers = [number(pick) for _ in range(16)]
        self.put_at, self.put = 0, b""
        self.tail = b""
        self.immediate = 0

    @property
    def has_modrm(self):
        return self.row.operands not in WITHOUT_MODRM

    @property
    def in_memory(self):
        return self.has_modrm and self.modrm < 0xC0

    def target(self):
        """An address on the data page; now and then at its edges."""
        if self.pick.random() < .06:
            return PLACES.data + self.pick.choice([-8, -1, 0, 4080, 4088, 4093, 4095])
        return PLACES.data + (self.pick.randrange(16, 4064) & self.pick.choice([-1, -1, -8, -16]))

    def code_target(self):
        """An address to go to: mostly on the page of code, else unmapped, or not canonical."""
        kind = self.pick.random()
        if kind < .7:
            return PLACES.code + self.pick.randrange(0x100, 0x700)
        return self.pick.getrandbits(32) if kind < .9 else self.pick.getrandbits(64)

    def narrow(self, value):
        """An address as it counts: with 67 its low 32 bits, and any above them."""
        if 0x67 in self.head.front:
            return value % 2**32 | self.pick.getrandbits(32) << 32
        return value % 2**64

    def build(self):
        """Displacement and immediate; where memory is named, its address is mostly one on the data page."""
        size = immediate_size(self.row.operands, self.head)
        at = self.target()
        if self.row.op in ("Bextr", "Bzhi") and self.pick.random() < .7:
            self.registers[self.head.v] = self.pick.randrange(80) | self.pick.randrange(80) << 8
        body = self.place(at, size) if self.has_modrm else b""
        self.immediate = self.drawn_immediate(size, at)
        self.tail = body + self.immediate.to_bytes(size, "little")
        if self.in_memory or IMMEDIATES.get(self.row.operands) == "a":
            self.put_at, self.put = at, self.bytes()

    def drawn_immediate(self, size, at):
        if IMMEDIATES.get(self.row.operands) == "a" and self.pick.random() < .9:
            return at % 256**size
        if self.row.operands == "Jz" and self.pick.random() < .8:
            return self.pick.randrange(-0x700, 0x700) % 2**32
        if size == 1 and self.row.op in SHIFTS + DOUBLE_SHIFTS and self.pick.random() < .5:
            return self.pick.randrange(4)
        return number(self.pick) % 256**size

    def bytes(self):
        return b"".join(number(self.pick).to_bytes(8, "little") for _ in range(2))

    def displacement(self, mode):
        size = {0: 0, 1: 1, 2: 4}[mode]
        value = self.pick.getrandbits(8 * size) if size else 0
        return value.to_bytes(size, "little"), value - (1 << 8 * size if size and value >> 8 * size - 1 else 0)

    def place(self, at, size):
        """ModRM, SIB and displacement. Registers, or a displacement that stands alone, are chosen so that the address is `at`."""
        mode, low = self.modrm >> 6, self.modrm & 7
        if mode == 3:
            return bytes([self.modrm])
        if low == 4:
            return self.place_with_sib(at, mode)
        if mode == 0 and low == 5:
            end = PLACES.instruction + len(self.lead) + 1 + 4 + size
            return bytes([self.modrm]) + ((at - end) % 2**32).to_bytes(4, "little")
        encoded, offset = self.displacement(mode)
        if self.pick.random() < .95:
            self.registers[low | self.head.b << 3] = self.narrow(at - offset)
        return bytes([self.modrm]) + encoded

    def place_with_sib(self, at, mode):
        sib = self.pick.getrandbits(8)
        index, base = sib >> 3 & 7 | self.head.x << 3, sib & 7
        if index != RSP and self.pick.random() < .6:
            self.registers[index] = self.pick.randrange(-64, 64) % 2**64
        scaled = (self.registers[index] if index != RSP else 0) << (sib >> 6)
        if base == 5 and mode == 0:
            return bytes([self.modrm, sib]) + ((at - scaled) % 2**32).to_bytes(4, "little")
        encoded, offset = self.displacement(mode)
        register = base | self.head.b << 3
        if register != index and self.pick.random() < .95:
            self.registers[register] = self.narrow(at - offset - scaled)
        return bytes([self.modrm, sib]) + encoded

    def prepare(self):
        """What an operation takes from registers and memory beside its operands."""
        op, pick = self.row.op, self.pick
        if op in STACK and not (self.in_memory and self.named(RSP)):
            self.prepare_stack()
        if op == "Leave":
            self.registers[RBP] = self.target()
        if op in STRINGS:
            self.prepare_string()
        if op in LOOPS and pick.random() < .6:
            self.registers[RCX] = pick.choice([0, 1, 2, 2**32, 2**32 + 1])
        if op in BIT_TESTS and self.in_memory and self.row.operands == "EvGv":
            self.prepare_bit()
        if op in ("Div", "Idiv") and pick.random() < .7:
            self.registers[RDX] = pick.choice([0, 1, 2**64 - 1, pick.getrandbits(8)])
        if op in ("Cmpxchg", "Cmpxchg8b") and pick.random() < .5:
            self.prepare_equal()
        if op in ("Jmp", "Call") and self.row.operands == "Ev":
            self.prepare_jump()
        if op == "Ldmxcsr":
            reserved = 1 << pick.randrange(16, 32) if pick.random() < .2 else 0
            self.put = (pick.getrandbits(16) | reserved).to_bytes(4, "little")

    def named(self, register):
        """Whether an address that was chosen counts from this register."""
        return self.modrm & 7 == 4 or self.modrm & 7 == register

    def prepare_stack(self):
        if self.pick.random() < .93:
            self.registers[RSP] = self.target()
        if self.put:
            return
        if self.row.op == "Ret":
            self.put_at, self.put = self.registers[RSP], self.code_target().to_bytes(8, "little")
        elif self.row.op == "Popf":
            flags = self.pick.getrandbits(12) & stepping.FLAGS | stepping.ALWAYS
            self.put_at, self.put = self.registers[RSP], flags.to_bytes(8, "little")

    def prepare_string(self):
        self.registers[RSI] = self.narrow(self.target())
        self.registers[RDI] = self.narrow(self.target())
        if 0xF2 in self.head.front or 0xF3 in self.head.front:
            self.registers[RCX] = self.narrow(self.pick.randrange(6))
        if self.pick.random() < .5:
            self.put_at, self.put = self.registers[RDI] % 2**32, self.bytes()

    def prepare_bit(self):
        """The bit's number, which reaches a few operands down or up."""
        register = self.modrm >> 3 & 7 | self.head.r << 3
        if register != self.modrm & 7 and self.modrm & 7 != 4 and self.pick.random() < .8:
            self.registers[register] = self.pick.randrange(-512, 512) % 2**64

    def prepare_equal(self):
        """The number that is compared is the one that is there."""
        if not self.in_memory:
            self.registers[RAX] = self.registers[self.modrm & 7 | self.head.b << 3]
        elif not self.named(RAX) and not self.named(RDX):
            half = 8 if self.row.width == 128 else 4 if self.row.op == "Cmpxchg8b" else 8
            self.registers[RAX] = int.from_bytes(self.put[:half], "little")
            self.registers[RDX] = int.from_bytes(self.put[half:2 * half], "little")

    def prepare_jump(self):
        if self.in_memory:
            self.put = self.code_target().to_bytes(8, "little")
        else:
            self.registers[self.modrm & 7 | self.head.b << 3] = self.code_target()

    def finish(self, writable, steps):
        code = self.lead + self.tail
        jump = jump_to_checks(PLACES.instruction + len(code))
        flags = self.pick.getrandbits(12) & stepping.FLAGS
        mxcsr = stepping.MXCSR if self.pick.random() < .3 else self.pick.getrandbits(16)
        start = stepping.Start(code + jump, self.registers, flags, self.put_at, self.put, writable, steps, mxcsr)
        return Draw(self.row, self.head, self.immediate, len(code), start)


def processor_features():
    text = pathlib.Path("/proc/cpuinfo").read_text()
    return set(next(line for line in text.splitlines() if line.startswith("flags")).split())


def is_drawn(row, have):
    """Whether a row can be compared on a processor with these features."""
    if row.part not in ("Core", "Gpr", "Bit", "String") or row.op in LEFT_OUT:
        return False
    return FEATURES.get(row.op, "avx" if row.kind == "vex" else "cpuid") in have


def drawn(pick, count, only="", kind=""):
    """So many draws, of one operation alone or of one class where it is named; none where this processor has no such row. What
    matches no row, or is longer than 15 bytes, is drawn again."""
    have = processor_features()
    table = listing.rows()
    choices = [row for row in table if kind in ("", row.kind) and only in ("", row.op) and is_drawn(row, have)]
    draws = []
    while choices and len(draws) < count:
        drawing = Drawing(pick, table, pick.choice(choices))
        row = drawing.row
        if row is None or only not in ("", row.op) or not is_drawn(row, have):
            continue
        drawing.build()
        drawing.prepare()
        repeats = row.op in STRINGS and pick.random() < .6
        draw = drawing.finish(pick.random() < .5, 100 if repeats else 1)
        if draw.length <= 15:
            draws.append(draw)
    return draws

"""The rows of tools/rows.txt, what the bytes of an instruction say, and which of the rows that matches."""
import collections
import pathlib
import re

LISTING = pathlib.Path(__file__).resolve().parent / "rows.txt"
ESCAPES = {0: b"", 1: b"\x0f", 2: b"\x0f\x38", 3: b"\x0f\x3a"}
MARKS = ("NP", "66", "F3", "F2")        # by the number in the field pp

# The operations that LOCK may stand before (Intel SDM volume 2, "LOCK"), and the operands whose first is ModRM.r/m.
LOCKS = "Xchg Xadd Cmpxchg Cmpxchg8b Add Or Adc Sbb And Sub Xor Not Neg Inc Dec Bts Btr Btc".split()
TO_MEMORY = "Eb Ev EbGb EvGv EbIb EvIb EvIz M".split()

# The operands that need memory in ModRM.r/m, or a register.
MEMORY_ONLY = "M GvM MvGv VxMx VxMxIb MxVx VxHxMx VxHxMxIb MxHxVx VxVm VxVmHx VmVx MxKx".split()
REGISTER_ONLY = "R HxUxIb UxIb VxHxUx VxHxUxIb UxHxVx VxUx VxUxIb UxVx VxRv GvUx GvUxIb KxUx VxKx KxKx KxKxKx KxKxIb KxRv GvKx".split()

# The operands whose first may be in memory, of those on vectors.
STORES = "WxVx WxVxIb MxVx MxHxVx EvVx EvVxIb VmVx".split()

# The operands with a general register in ModRM.r/m, of those on vectors.
GENERAL_RM = "VxEv EvVx VxEvIb VxHxEvIb EvVxIb VxRv".split()

Row = collections.namedtuple("Row", "kind map mark opcode digit w lengths operands width part op level tuple mask")

# What stands before an instruction's operands. `kind`: legacy, vex or evex; `front`: the legacy prefixes and REX; `mark`: the
# mandatory prefix; `length`: 1 for 128 bits (and for legacy), 2 for 256, 4 for 512; `r`, `x` and `b`: 1 where they make a register's
# number higher, and `r` of EVEX up to 3; `v`: the register in vvvv, of EVEX with V'; `modrm`: the byte behind the opcode, 0 where
# there is none; of EVEX `z`, `bc`, which is b, and `aaa`, and `fixed`, whether the bits that are fixed are as they have to be.
Head = collections.namedtuple("Head", "kind front map mark w length r x b v opcode modrm z bc aaa fixed",
                              defaults=(False, False, 0, True))


def rows():
    """The rows, one for each opcode."""
    found = []
    for line in LISTING.read_text().splitlines():
        words = line.split("#")[0].split()
        if not words:
            continue
        more = dict(word.split("=") for word in words[10:])
        first, _, last = words[3].partition("..")
        part, op = words[9].split(".")
        for opcode in range(int(first, 16), int(last or first, 16) + 1):
            found.append(Row(words[0], int(words[1]), words[2], opcode, words[4], words[5], int(words[6]), words[7],
                             int(words[8]), part, op, more.get("level", ""), more.get("tuple", ""), more.get("mask", "")))
    return found


def read(code):
    """What some bytes say before the operands of an instruction."""
    at = 0
    while code[at] in b"\xf0\xf2\xf3\x2e\x36\x3e\x26\x64\x65\x66\x67" or 0x40 <= code[at] <= 0x4F:
        at += 1
    front, rest = code[:at], code[at:] + bytes(6)
    if rest[0] == 0xC5:
        return vex_head(front, rest[1] & 0x80 | 0x61, rest[1] & 0x7F, rest[2:])
    if rest[0] == 0xC4:
        return vex_head(front, rest[1], rest[2], rest[3:])
    if rest[0] == 0x62:
        return evex_head(front, *rest[1:4], rest[4:])
    return legacy_head(front, rest)


def legacy_head(front, rest):
    map_ = {0x38: 2, 0x3A: 3}.get(rest[1], 1) if rest[0] == 0x0F else 0
    opcode, modrm = rest[len(ESCAPES[map_]):][:2]
    rex = front[-1] if has_rex(front) else 0
    return Head("legacy", front, map_, mark(front), bool(rex & 8), 1, rex >> 2 & 1, rex >> 1 & 1, rex & 1, 0, opcode, modrm)


def vex_head(front, high, more, rest):
    """The same by the fields of VEX: R', X', B' and the map, then W, vvvv', L and pp."""
    return Head("vex", front, high & 0x1F, MARKS[more & 3], bool(more & 0x80), 1 << (more >> 2 & 1), ~high >> 7 & 1,
                ~high >> 6 & 1, ~high >> 5 & 1, ~more >> 3 & 15, rest[0], rest[1])


def evex_head(front, high, more, last, rest):
    """The same by the fields of EVEX: R', X', B', R'', 0 and the map, then W, vvvv', 1 and pp, then z, L'L, b, V'' and aaa."""
    return Head("evex", front, high & 7, MARKS[more & 3], bool(more & 0x80), 1 << (last >> 5 & 3),
                (~high >> 7 & 1) + 2 * (~high >> 4 & 1), ~high >> 6 & 1, ~high >> 5 & 1,
                (~more >> 3 & 15) + 16 * (~last >> 3 & 1), rest[0], rest[1], bool(last & 0x80), bool(last & 0x10), last & 7,
                not high & 8 and bool(more & 4))


def mark(front):
    """The mandatory prefix of some prefixes, in the words of the listing."""
    repeats = [byte for byte in front if byte in b"\xf2\xf3"]
    if repeats:
        return f"{repeats[-1]:02X}"
    return "66" if 0x66 in front else "NP"


def has_rex(front):
    """Whether there is a REX byte that counts: the last one before the opcode."""
    return bool(front) and 0x40 <= front[-1] <= 0x4F


def may_precede_vex(front):
    """Whether VEX or EVEX may stand behind these prefixes: none of 66, F2, F3, LOCK and REX (Intel SDM volume 2, 2.3.2 to 2.3.4)."""
    return not any(byte in front for byte in b"\x66\xf2\xf3\xf0") and not has_rex(front)


def names_vvvv(row):
    """Whether a row has an operand in vvvv. Where it has none, vvvv has to be 1111."""
    return bool(re.search("By|Hx|KxKxKx", row.operands))


def takes(row, modrm):
    """Whether a row takes what ModRM.r/m names. XGETBV takes one ModRM byte alone."""
    if row.operands == "ByteD0":
        return modrm == 0xD0
    return row.operands not in (REGISTER_ONLY if modrm < 0xC0 else MEMORY_ONLY)


def taken_lengths(row):
    """The vector lengths that a row takes, added up: those of 128 and of 256 bits where it ignores L."""
    return 3 if row.lengths == 8 else row.lengths


def fitting(table, head):
    """The rows of the class, map and opcode that are there."""
    return [row for row in table if (row.kind, row.map, row.opcode) == (head.kind, head.map, head.opcode)]


def matched(table, head):
    """The row that these fields match, or None: the marked one before the other."""
    fit = [row for row in fitting(table, head) if row.digit in ("-", str(head.modrm // 8 % 8))
           and row.w in ("-", str(int(head.w))) and taken_lengths(row) & head.length and takes(row, head.modrm)]
    marked = [row for row in fit if row.mark == head.mark]
    return next(iter(marked or [row for row in fit if row.mark == "-"]), None)

"""Asks the processor of this computer what instructions on vector registers give, and prints it as the rows of a crate's tests.

A case is one instruction, or a few, and the operation of row_table that they have. Its operands are in vector registers 1, 2
and 3, its mask in K1, and its result is what is left in vector register 0. %v0 to %v7 in its text are XMM, YMM or ZMM registers,
by the length of its vectors. It may change RAX, RCX, RDX, K1 to K3, vector registers 0 to 7 and 128 bytes below RSP.
Needs gcc, and Linux on a processor with AVX512BW and AVX512VL, and with whatever the instructions of the cases need.
"""
import dataclasses
import pathlib
import re
import subprocess
import tempfile

REGISTERS = {16: "xmm", 32: "ymm", 64: "zmm"}
MOST = 50       # rows in a table: a longer one takes the prover past its limit
CHANGED = ["rax", "rcx", "rdx", "k1", "k2", "k3", *(f"xmm{n}" for n in range(8)), "cc", "memory"]


@dataclasses.dataclass
class Case:
    """An operation's name, the width of its lanes in bytes, its immediate, the number in K1, the length of its vectors in bytes,
    the instructions (AT&T, separated by semicolons), and the operands as numbers: destination, first and second source."""
    name: str
    width: int
    imm: int
    mask: int
    length: int
    text: str
    dest: int
    first: int
    second: int


def quadwords(case):
    """What the program takes of a case: its three operands, of 64 bytes each, and its mask."""
    operands = (case.dest, case.first, case.second)
    return [number >> place & (1 << 64) - 1 for number in operands for place in range(0, 512, 64)] + [case.mask]


def statement(index, case):
    text = re.sub(r"%v(\d)", rf"%{REGISTERS[case.length]}\1", case.text).replace("%", "%%").replace("{", "%{").replace("}", "%}")
    load = "vmovdqu64 (%0), %%zmm1; vmovdqu64 64(%0), %%zmm2; vmovdqu64 128(%0), %%zmm3; kmovq 192(%0), %%k1"
    changed = ", ".join(f'"{name}"' for name in CHANGED)
    return (f'asm volatile("{load}; {text}; vmovdqu64 %%zmm0, (%1)" : : "r"(in[{index}]), "r"(out) : {changed}); '
            f'show({case.length // 8});')


def program(cases):
    table = ",\n".join("{" + ", ".join(f"0x{number:x}ull" for number in quadwords(case)) + "}" for case in cases)
    head = ['#include <stdio.h>', 'typedef unsigned long long u64;', f'static const u64 in[{len(cases)}][25] = {{{table}}};',
            'static u64 out[8];', 'static void show(int count) { while (count--) printf("%016llx", out[count]); printf("\\n"); }',
            'int main(void) {']
    return "\n".join([*head, *(statement(index, case) for index, case in enumerate(cases)), 'return 0; }'])


def results(cases):
    """What the processor leaves of each case in vector register 0: as many low bytes as its vectors have, as a number."""
    with tempfile.TemporaryDirectory() as folder:
        source, built = pathlib.Path(folder, "rows.c"), pathlib.Path(folder, "rows")
        source.write_text(program(cases))
        subprocess.run(["gcc", "-O0", "-mavx512bw", "-mavx512dq", "-mavx512vl", "-mno-red-zone", "-o", built, source], check=True)
        lines = subprocess.run([built], check=True, capture_output=True, text=True).stdout.split()
    return [int(line, 16) for line in lines]


def grouped(number):
    """A number of 16 bytes as Rattle writes it."""
    digits = f"{number:032X}"
    return "0x" + "_".join(digits[k:k + 8] for k in range(0, 32, 8))


def vector(number, length):
    """A vector as an array of numbers of 16 bytes, the lowest first."""
    return "[" + ", ".join(grouped(number >> place & (1 << 128) - 1) for place in range(0, 8 * length, 128)) + "]"


def print_table(name, enum, rows):
    length = rows[0][0].length
    print("\n#[rattlefmt::skip]")
    print(f"pub(crate) static {name}: [Row<{length // 16}>; {len(rows)}] = [")
    for case, result in rows:
        operands = ", ".join(vector(number, length) for number in (case.dest, case.first, case.second, result))
        print(f"    ({enum}::{case.name}, {case.width}, {case.imm}, 0x{case.mask:X}, {operands}),")
    print("];")


def print_head(tool, enum, origin="on a processor"):
    print(f"//! What each operation gives {origin}, as tools/{tool} prints it.")
    print(f"use row_table::{enum};\n")
    print("/// Operation, width of lanes in bytes, immediate, mask, and vectors as numbers of 16 bytes, the lowest first: destination,")
    print("/// first and second operand, and result.")
    print("pub(crate) type Row<const N: usize> = (")
    for part in (enum, "u8", "u8", "u64", *["[u128; N]"] * 4):
        print(f"    {part},")
    print(");")


def print_tables(stem, enum, answered):
    """Cases and their results, in tables STEM_16_1, STEM_16_2, .. by the length of their vectors."""
    for length in REGISTERS:
        rows = [row for row in answered if row[0].length == length]
        for place in range(0, len(rows), MOST):
            print_table(f"{stem}_{length}_{place // MOST + 1}", enum, rows[place:place + MOST])


def print_rows(tool, enum, cases):
    """The file with the rows of the cases, in tables ROWS_16_1, ROWS_16_2, .. by the length of their vectors."""
    answered = list(zip(cases, results(cases)))
    print_head(tool, enum)
    print_tables("ROWS", enum, answered)

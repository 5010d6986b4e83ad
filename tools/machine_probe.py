"""A program over `core_step` that takes steps of the machine that `xemu` runs, from starts that are given line by line."""
USES = "core_step page_fixture"
ANSWER = r"(done|de|bp|ud|gp|pf)( [0-9a-f]+){4}( @?[0-9a-f]+=[0-9a-f]+)*"


def text(places, start):
    """A start as the program reads it: the record's bytes in hexadecimal, behind the three places."""
    return f"{places.code:016x}{places.data:016x}{places.instruction:016x}{start.record().hex()}"


MAIN = """\
//! Reads starts, one a line, takes a step of the machine from each, and prints where it got to.
#![tactic(auto)]

use core_step::{Acted, Fault, Fetched, Flags, Gprs, Kind, Machine, Pages, Perms, VecFile};
use page_fixture::map_in_frame;
use std::io;

/// A line's numbers are in hexadecimal, and its numbers of several bytes in a record have the lowest first.
#[derive(Drop)]
struct Line<'a> {
    text: &'a [u8],
}

fn digit(code: u8) -> u64 {
    (if code >= b'a' { code - b'a' + 10 } else { code - b'0' }) as u64
}

impl<'a> Line<'a> {
    fn place(&self, n: usize) -> u64 {
        let mut number = 0;
        for k in 0..16 {
            number = number << 4 | digit(self.text[16 * n + k]);
        }
        number
    }

    fn byte(&self, n: usize) -> u8 {
        let at = 48 + 2 * n;
        (digit(self.text[at]) << 4 | digit(self.text[at + 1])) as u8
    }

    fn number(&self, n: usize) -> u64 {
        let mut number = 0;
        for k in 0..8 {
            number = number << 8 | self.byte(n + 7 - k) as u64;
        }
        number
    }
}

const PUT: usize = 144;
const CODE: usize = 160;
const ENDS: usize = 184;

fn first_page() -> [u8; 4096] {
    let mut page = [0; 4096];
    for k in 0..4096 {
        page[k] = ((k * 7 + 1) % 256) as u8;
    }
    page
}

fn data_page(first: &[u8], line: &Line) -> [u8; 4096] {
    let mut page = [0; 4096];
    page.copy_from_slice(first);
    let at = line.number(136);
    for k in 0..line.byte(ENDS) as usize {
        let offset = at.wrapping_add(k as u64).wrapping_sub(line.place(1));
        if offset < 4096 {
            page[offset as usize] = line.byte(PUT + k);
        }
    }
    page
}

fn code(line: &Line) -> [u8; 24] {
    let mut code = [0xCC; 24];
    for k in 0..line.byte(ENDS + 1) as usize {
        code[k] = line.byte(CODE + k);
    }
    code
}

fn registers(line: &Line) -> Gprs {
    let mut gprs = Gprs::new();
    for n in 0..16 {
        gprs.set(n as u8, line.number(8 * n));
    }
    gprs
}

fn machine(rt: &HostRuntime, line: &Line) -> Result<Machine, io::Error> {
    let mut pages = Pages::new(rt.alloc(), 8, 8)?;
    let _ = map_in_frame(&mut pages, line.place(0), Perms(5));
    let _ = map_in_frame(&mut pages, line.place(1), Perms(5));
    Ok(Machine {
        gprs: Gprs::new(),
        flags: Flags::none(),
        rip: 0,
        vec: VecFile::new(),
        pages,
        fs: 0,
        gs: 0,
        steps: 0,
    })
}

fn begin(m: &mut Machine, line: &Line, page: &[u8]) {
    let writable = line.byte(ENDS + 2) != 0;
    m.pages.set_perms(line.place(0), Perms(3));
    m.pages.set_perms(line.place(1), Perms(3));
    let _ = m.pages.write(line.place(2), &code(line));
    let _ = m.pages.write(line.place(1), page);
    m.pages.set_perms(line.place(0), Perms(5));
    m.pages.set_perms(line.place(1), Perms(if writable { 3 } else { 5 }));
    m.gprs = registers(line);
    m.flags = Flags::from_word(line.number(128));
    m.vec.set_mxcsr((line.number(ENDS) >> 32) as u32);
    m.rip = line.place(2);
}

fn step(machine: &mut Machine) -> Acted {
    match machine.fetch() {
        Fetched::Instr(d, len) => machine.perform(&d, len),
        Fetched::Trap(fault) => Acted::Trap(fault),
        Fetched::Need(slot) => Acted::Need(slot),
    }
}

fn run(machine: &mut Machine, most: u8) -> Acted {
    let start = machine.rip;
    let mut acted = step(machine);
    let mut steps = 1;
    while steps < most && acted == Acted::Done && machine.rip == start {
        acted = step(machine);
        steps += 1;
    }
    acted
}

fn ending(acted: Acted) -> (&'static str, u64) {
    match acted {
        Acted::Done => ("done", 0),
        Acted::Call => ("call", 0),
        Acted::Need(_) => ("need", 0),
        Acted::Trap(Fault::Divide) => ("de", 0),
        Acted::Trap(Fault::Breakpoint) => ("bp", 0),
        Acted::Trap(Fault::Undefined) => ("ud", 0),
        Acted::Trap(Fault::General) => ("gp", 0),
        Acted::Trap(Fault::Page { addr, .. }) => ("pf", addr),
    }
}

fn answer(rt: &HostRuntime, m: &mut Machine, first: &[u8], line: &Line) -> io::Result<()> {
    let page = data_page(first, line);
    begin(m, line, &page);
    let (how, at) = ending(run(m, line.byte(ENDS + 3)));
    print!(rt; "{how} {at:x} {:x} {:x} {:x}", m.rip, m.flags.word(), m.vec.mxcsr())?;
    for n in 0..16 {
        let value = m.gprs.get(n as u8);
        if value != line.number(8 * n) {
            print!(rt; " {n:x}={value:x}")?;
        }
    }
    let mut left = [0; 4096];
    let _ = m.pages.read(line.place(1), &mut left, Kind::Read);
    changes(rt, line.place(1), &page, &left)?;
    println!(rt; "")
}

fn changes(rt: &HostRuntime, at: u64, page: &[u8], left: &[u8]) -> io::Result<()> {
    for k in 0..64 {
        if left[64 * k..64 * k + 64] != page[64 * k..64 * k + 64] {
            for n in 64 * k..64 * k + 64 {
                if left[n] != page[n] {
                    let place = at + n as u64;
                    print!(rt; " @{place:x}={:x}", left[n])?;
                }
            }
        }
    }
    Ok(())
}

fn main(rt: HostRuntime) -> io::Result<()> {
    let first = first_page();
    let mut machines = Vec::new(rt.alloc());
    for line in rt.lines(rt.alloc()) {
        let text = line?;
        let line = Line { text: text.as_bytes() };
        if machines.len() == 0 {
            machines.push(machine(&rt, &line)?)?;
        }
        answer(&rt, &mut machines[0], &first, &line)?;
    }
    Ok(())
}
"""

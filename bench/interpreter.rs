//! A plain interpreter of the machine in docs/MACHINE.md: it decodes each instruction anew and checks nothing of the
//! image, no graph and no script. `interpreter IMAGE INPUT STEPS`, where INPUT may be `none`, prints the lines
//! `output`, `stop` and `steps` as `rvcfi run` does.

use std::io::Write;

const DATA_START: usize = 0x10000;
const CODE: u64 = 0x4000_0000;
const CODE_LENGTH: usize = 0x10_0000;
const SHADOW: u64 = 0x6000_0000;
const SHADOW_LENGTH: usize = 0x1_0000;
const WINDOW: u64 = 1 << 28;
const DATA_LENGTH: usize = WINDOW as usize + 4096;

/// What stands after `stop` where a run ends.
type Stop = String;

struct Machine {
    x: [u64; 32],
    pc: u64,
    data: Vec<u8>,
    code: Vec<u8>,
    shadow: Vec<u8>,
    input: Vec<u8>,
    taken: usize,
    output: Vec<u8>,
}

/// The place of an access in a region of this start and length, if it lies inside.
fn place(addr: u64, size: usize, start: u64, length: usize) -> Option<usize> {
    let at = addr.wrapping_sub(start);
    (at <= (length - size) as u64).then_some(at as usize)
}

fn number(bytes: &[u8]) -> u64 {
    bytes.iter().rev().fold(0, |value, byte| value << 8 | u64::from(*byte))
}

fn word32(value: u32) -> u64 {
    value as i32 as u64
}

/// What DIV, DIVU, REM and REMU give.
fn divided(funct3: u32, a: u64, b: u64) -> u64 {
    let (signed, other) = (a as i64, b as i64);
    match funct3 {
        4 if b == 0 => u64::MAX,
        4 => signed.wrapping_div(other) as u64,
        5 => a.checked_div(b).unwrap_or(u64::MAX),
        _ if b == 0 => a,
        6 => signed.wrapping_rem(other) as u64,
        _ => a % b,
    }
}

/// What MUL, MULH, MULHSU and MULHU give, and the quotients and remainders.
fn multiplied(funct3: u32, a: u64, b: u64) -> u64 {
    let signed = i128::from(a as i64);
    match funct3 {
        0 => a.wrapping_mul(b),
        1 => (signed * i128::from(b as i64) >> 64) as u64,
        2 => (signed * b as i128 >> 64) as u64,
        3 => (u128::from(a) * u128::from(b) >> 64) as u64,
        _ => divided(funct3, a, b),
    }
}

impl Machine {
    /// The bytes of an access, if they lie in one region that allows it.
    fn bytes<const SIZE: usize>(&mut self, addr: u64, writes: bool) -> Option<&mut [u8]> {
        if let Some(at) = place(addr, SIZE, 0, DATA_LENGTH) {
            Some(&mut self.data[at..at + SIZE])
        } else if let Some(at) = place(addr, SIZE, SHADOW, SHADOW_LENGTH) {
            Some(&mut self.shadow[at..at + SIZE])
        } else {
            let at = place(addr, SIZE, CODE, CODE_LENGTH).filter(|_| !writes)?;
            Some(&mut self.code[at..at + SIZE])
        }
    }

    fn load<const SIZE: usize>(&mut self, addr: u64) -> Result<u64, Stop> {
        let pc = self.pc;
        let bytes = self.bytes::<SIZE>(addr, false);
        bytes.map(|bytes| number(bytes)).ok_or_else(|| format!("load {pc:08x} {addr:016x}"))
    }

    fn store<const SIZE: usize>(&mut self, addr: u64, value: u64) -> Result<(), Stop> {
        let pc = self.pc;
        let bytes = self.bytes::<SIZE>(addr, true).ok_or_else(|| format!("store {pc:08x} {addr:016x}"))?;
        bytes.copy_from_slice(&value.to_le_bytes()[..SIZE]);
        Ok(())
    }

    fn system_call(&mut self) -> Result<(), Stop> {
        let (fd, addr, count) = (self.x[10], self.x[11], self.x[12]);
        let outside = addr.checked_add(count).map_or(true, |end| end > WINDOW);
        self.x[10] = match self.x[17] {
            93 | 94 => return Err(format!("exit {}", fd as u8)),
            64 if fd != 1 && fd != 2 => -9i64 as u64,
            63 if fd != 0 => -9i64 as u64,
            63 | 64 if outside => -14i64 as u64,
            64 => {
                self.output.extend_from_slice(&self.data[addr as usize..(addr + count) as usize]);
                count
            }
            63 => {
                let left = &self.input[self.taken..];
                let (addr, count) = (addr as usize, left.len().min(count as usize));
                self.data[addr..addr + count].copy_from_slice(&left[..count]);
                self.taken += count;
                count as u64
            }
            _ => -38i64 as u64,
        };
        Ok(())
    }

    fn step(&mut self) -> Result<(), Stop> {
        let at = self.pc.wrapping_sub(CODE) as usize;
        if at >= CODE_LENGTH || at % 4 != 0 {
            return Err(format!("fetch {:08x}", self.pc));
        }
        let word = number(&self.code[at..at + 4]) as u32;
        let (rd, funct3, funct7) = ((word >> 7 & 31) as usize, word >> 12 & 7, word >> 25);
        let (a, b) = (self.x[(word >> 15 & 31) as usize], self.x[(word >> 20 & 31) as usize]);
        let immediate = (word as i32 >> 20) as u64;
        let operand = if word & 0x20 == 0 { immediate } else { b }; // of arithmetic
        let upper = word32(word & 0xffff_f000);
        let mut next = self.pc.wrapping_add(4);
        let value = match (word & 0x7f, funct3, funct7) {
            (0x37, _, _) => upper,
            (0x17, _, _) => self.pc.wrapping_add(upper),
            (0x6f, _, _) => {
                let offset = word & 0xff000 | word >> 9 & 0x800 | word >> 20 & 0x7fe;
                let link = next;
                next = self.pc.wrapping_add((upper as i32 >> 11 & -0x10_0000) as u64 | u64::from(offset));
                link
            }
            (0x67, 0, _) => std::mem::replace(&mut next, a.wrapping_add(immediate) & !1),
            (0x63, 0 | 1 | 4..=7, _) => {
                let taken = match funct3 >> 1 {
                    0 => a == b,
                    2 => (a as i64) < b as i64,
                    _ => a < b,
                };
                if taken == (funct3 & 1 == 0) {
                    let offset = word << 4 & 0x800 | word >> 20 & 0x7e0 | word >> 7 & 0x1e;
                    next = self.pc.wrapping_add((word as i32 >> 19 & -0x1000) as u64 | u64::from(offset));
                }
                return Ok(self.pc = next);
            }
            (0x03, 0, _) => self.load::<1>(a.wrapping_add(immediate))? as i8 as u64,
            (0x03, 1, _) => self.load::<2>(a.wrapping_add(immediate))? as i16 as u64,
            (0x03, 2, _) => self.load::<4>(a.wrapping_add(immediate))? as i32 as u64,
            (0x03, 3, _) => self.load::<8>(a.wrapping_add(immediate))?,
            (0x03, 4, _) => self.load::<1>(a.wrapping_add(immediate))?,
            (0x03, 5, _) => self.load::<2>(a.wrapping_add(immediate))?,
            (0x03, 6, _) => self.load::<4>(a.wrapping_add(immediate))?,
            (0x23, 0..=3, _) => {
                let addr = a.wrapping_add(immediate & !31 | u64::from(word >> 7 & 31));
                match funct3 {
                    0 => self.store::<1>(addr, b)?,
                    1 => self.store::<2>(addr, b)?,
                    2 => self.store::<4>(addr, b)?,
                    _ => self.store::<8>(addr, b)?,
                }
                return Ok(self.pc = next);
            }
            (0x13, 0, _) | (0x33, 0, 0) => a.wrapping_add(operand),
            (0x33, 0, 0x20) => a.wrapping_sub(b),
            (0x13, 2, _) | (0x33, 2, 0) => u64::from((a as i64) < operand as i64),
            (0x13, 3, _) | (0x33, 3, 0) => u64::from(a < operand),
            (0x13, 4, _) | (0x33, 4, 0) => a ^ operand,
            (0x13, 6, _) | (0x33, 6, 0) => a | operand,
            (0x13, 7, _) | (0x33, 7, 0) => a & operand,
            (0x13, 1, 0 | 1) | (0x33, 1, 0) => a << (operand & 63),
            (0x13, 5, 0 | 1) | (0x33, 5, 0) => a >> (operand & 63),
            (0x13, 5, 0x20 | 0x21) | (0x33, 5, 0x20) => (a as i64 >> (operand & 63)) as u64,
            (0x1b, 0, _) | (0x3b, 0, 0) => word32(a.wrapping_add(operand) as u32),
            (0x3b, 0, 0x20) => word32(a.wrapping_sub(b) as u32),
            (0x1b | 0x3b, 1, 0) => word32((a as u32) << (operand & 31)),
            (0x1b | 0x3b, 5, 0) => word32(a as u32 >> (operand & 31)),
            (0x1b | 0x3b, 5, 0x20) => (a as i32 >> (operand & 31)) as u64,
            (0x33, _, 1) => multiplied(funct3, a, b),
            (0x3b, 0, 1) => word32(a.wrapping_mul(b) as u32),
            (0x3b, 4 | 6, 1) => word32(divided(funct3, word32(a as u32), word32(b as u32)) as u32),
            (0x3b, 5 | 7, 1) => word32(divided(funct3, u64::from(a as u32), u64::from(b as u32)) as u32),
            (0x0f, 0, _) => return Ok(self.pc = next),
            (0x73, 0, 0) if word == 0x0000_0073 => {
                self.system_call()?;
                return Ok(self.pc = next);
            }
            (0x73, 0, 0) if word == 0x0010_0073 => {
                let handler = ["bad_target", "bad_return", "deep"].get(at / 4);
                let broken = || format!("break {:08x}", self.pc);
                return Err(handler.map_or_else(broken, |name| format!("handler __cfi_{name}")));
            }
            _ => return Err(format!("illegal {:08x}", self.pc)),
        };
        if rd != 0 {
            self.x[rd] = value;
        }
        self.pc = next;
        Ok(())
    }
}

fn main() -> std::io::Result<()> {
    let words: Vec<String> = std::env::args().collect();
    let [_, image, input, limit] = &words[..] else { panic!("usage: interpreter IMAGE INPUT STEPS") };
    let limit: u64 = limit.parse().expect("STEPS is a decimal number");
    let image = std::fs::read(image)?;
    let input = if input == "none" { Vec::new() } else { std::fs::read(input)? };
    let (mut code, mut data) = (vec![0; CODE_LENGTH], vec![0; DATA_LENGTH]);
    let (filled, given) = (number(&image[152..160]) as usize, &image[number(&image[72..80]) as usize..]);
    code[..filled].copy_from_slice(&image[4096..4096 + filled]);
    data[DATA_START..DATA_START + given.len()].copy_from_slice(given);
    let shadow = vec![0; SHADOW_LENGTH];
    let mut machine = Machine { x: [0; 32], pc: CODE + 12, data, code, shadow, input, taken: 0, output: Vec::new() };
    let (mut steps, mut end) = (0, Ok(()));
    while steps < limit && end.is_ok() {
        steps += 1;
        end = machine.step();
    }
    let stop = end.err().unwrap_or_else(|| Stop::from("limit"));
    println!("output {}", machine.output.len());
    std::io::stdout().write_all(&machine.output)?;
    println!("\nstop {stop}\nsteps {steps}");
    Ok(())
}

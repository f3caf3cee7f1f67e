//! A plain interpreter of RV32I, against which the proved program's time is measured.
//!
//! It loads an ELF32 executable into pages with permissions, as the proved program does, and executes all 40
//! instructions of RV32I with their alignment and access traps. What it leaves out: other threads (a guest that
//! creates one, or waits, is refused), views and records (a store goes into the one copy of its page, and neither reads nor stored bytes are
//! noted), the input, fuel, and the checks of a damaged executable. It is not proved.
//!
//! `interpreter GUEST.elf` prints the lines `end`, `instructions` and `output` of the proved program's report.

use std::process::ExitCode;

const PAGE_SIZE: usize = 4096;
const EXECUTE: u8 = 1;
const WRITE: u8 = 2;
const READ: u8 = 4;

const INPUT_HEADER: u32 = 0xc000_0000;
const STACK: u32 = 0xd000_0000;
const STACK_SIZE: u32 = 0x1_0000;

/// Why a turn didn't go on (the exception codes of the privileged ISA).
#[derive(Clone, Copy)]
enum Trap {
    InstructionMisaligned = 0,
    InstructionAccess = 1,
    IllegalInstruction = 2,
    Breakpoint = 3,
    LoadMisaligned = 4,
    LoadAccess = 5,
    StoreMisaligned = 6,
    StoreAccess = 7,
    BadCall = 8,
}

struct Page {
    permission: u8,
    bytes: [u8; PAGE_SIZE],
}

/// The mapped pages, and for each page number of the address space its place among them and one more, or 0.
struct Memory {
    pages: Vec<Page>,
    places: Vec<u32>,
}

impl Memory {
    fn new() -> Memory {
        Memory {
            pages: Vec::new(),
            places: vec![0; 1 << 20],
        }
    }

    /// Maps the pages of a range, with these rights beside those that they have.
    fn map(&mut self, start: u32, size: u32, permission: u8) {
        if size == 0 {
            return;
        }
        for number in start >> 12..=(start + (size - 1)) >> 12 {
            let place = &mut self.places[number as usize];
            if *place == 0 {
                self.pages.push(Page {
                    permission,
                    bytes: [0; PAGE_SIZE],
                });
                *place = self.pages.len() as u32;
            } else {
                self.pages[*place as usize - 1].permission |= permission;
            }
        }
    }

    /// Writes bytes whatever the permission is.
    fn fill(&mut self, start: u32, bytes: &[u8]) {
        for (address, byte) in (start..).zip(bytes) {
            let place = self.places[(address >> 12) as usize] as usize - 1;
            self.pages[place].bytes[address as usize % PAGE_SIZE] = *byte;
        }
    }

    #[inline(always)]
    fn page(&mut self, address: u32, right: u8) -> Option<&mut Page> {
        let place = self.places[(address >> 12) as usize];
        let page = self.pages.get_mut((place as usize).wrapping_sub(1))?;
        (page.permission & right != 0).then_some(page)
    }

    /// The bytes at an address that is a multiple of their count, where the page has the right.
    #[inline(always)]
    fn bytes<const N: usize>(&mut self, address: u32, right: u8) -> Option<[u8; N]> {
        let offset = address as usize % PAGE_SIZE;
        let page = self.page(address, right)?;
        page.bytes.get(offset..offset + N)?.try_into().ok()
    }

    #[inline(always)]
    fn load<const N: usize>(&mut self, address: u32) -> Result<[u8; N], Trap> {
        if address as usize % N != 0 {
            return Err(Trap::LoadMisaligned);
        }
        self.bytes(address, READ).ok_or(Trap::LoadAccess)
    }

    #[inline(always)]
    fn store<const N: usize>(&mut self, address: u32, bytes: [u8; N]) -> Result<(), Trap> {
        if address as usize % N != 0 {
            return Err(Trap::StoreMisaligned);
        }
        let offset = address as usize % PAGE_SIZE;
        let page = self.page(address, WRITE).ok_or(Trap::StoreAccess)?;
        let place = page.bytes.get_mut(offset..offset + N).ok_or(Trap::StoreAccess)?;
        place.copy_from_slice(&bytes);
        Ok(())
    }
}

/// The fields of an instruction's word, and its immediates by form (RISC-V unprivileged ISA 20191213, 2.2 and 2.3).
#[derive(Clone, Copy)]
struct Word(u32);

impl Word {
    #[inline(always)]
    fn rd(self) -> usize {
        (self.0 >> 7 & 31) as usize
    }

    #[inline(always)]
    fn rs1(self) -> usize {
        (self.0 >> 15 & 31) as usize
    }

    #[inline(always)]
    fn rs2(self) -> usize {
        (self.0 >> 20 & 31) as usize
    }

    #[inline(always)]
    fn funct3(self) -> u32 {
        self.0 >> 12 & 7
    }

    #[inline(always)]
    fn funct7(self) -> u32 {
        self.0 >> 25
    }

    #[inline(always)]
    fn immediate_i(self) -> u32 {
        (self.0 as i32 >> 20) as u32
    }

    #[inline(always)]
    fn immediate_s(self) -> u32 {
        (self.0 as i32 >> 25 << 5) as u32 | self.0 >> 7 & 31
    }

    #[inline(always)]
    fn immediate_b(self) -> u32 {
        (self.0 as i32 >> 31 << 12) as u32
            | (self.0 >> 7 & 1) << 11
            | (self.0 >> 25 & 63) << 5
            | (self.0 >> 8 & 15) << 1
    }

    #[inline(always)]
    fn immediate_u(self) -> u32 {
        self.0 & 0xffff_f000
    }

    #[inline(always)]
    fn immediate_j(self) -> u32 {
        (self.0 as i32 >> 31 << 20) as u32
            | (self.0 >> 12 & 255) << 12
            | (self.0 >> 20 & 1) << 11
            | (self.0 >> 21 & 1023) << 1
    }
}

/// A hart: pc, and x0 to x31.
struct Hart {
    pc: u32,
    x: [u32; 32],
}

/// Whether a turn was an ECALL.
enum Outcome {
    Next,
    Call,
}

impl Hart {
    #[inline(always)]
    fn set(&mut self, register: usize, value: u32) {
        if register != 0 {
            self.x[register] = value;
        }
    }

    #[inline(always)]
    fn jump(&mut self, target: u32) -> Result<Outcome, Trap> {
        if target % 4 != 0 {
            return Err(Trap::InstructionMisaligned);
        }
        self.pc = target;
        Ok(Outcome::Next)
    }

    #[inline(always)]
    fn link_and_jump(&mut self, register: usize, target: u32) -> Result<Outcome, Trap> {
        let after = self.pc.wrapping_add(4);
        let outcome = self.jump(target)?;
        self.set(register, after);
        Ok(outcome)
    }

    #[inline(always)]
    fn load(&mut self, memory: &mut Memory, word: Word) -> Result<u32, Trap> {
        let address = self.x[word.rs1()].wrapping_add(word.immediate_i());
        Ok(match word.funct3() {
            0b000 => i8::from_le_bytes(memory.load(address)?) as u32,
            0b001 => i16::from_le_bytes(memory.load(address)?) as u32,
            0b010 => u32::from_le_bytes(memory.load(address)?),
            0b100 => u32::from(u8::from_le_bytes(memory.load(address)?)),
            0b101 => u32::from(u16::from_le_bytes(memory.load(address)?)),
            _ => return Err(Trap::IllegalInstruction),
        })
    }

    #[inline(always)]
    fn store(&mut self, memory: &mut Memory, word: Word) -> Result<(), Trap> {
        let address = self.x[word.rs1()].wrapping_add(word.immediate_s());
        let value = self.x[word.rs2()];
        match word.funct3() {
            0b000 => memory.store(address, (value as u8).to_le_bytes()),
            0b001 => memory.store(address, (value as u16).to_le_bytes()),
            0b010 => memory.store(address, value.to_le_bytes()),
            _ => Err(Trap::IllegalInstruction),
        }
    }

    #[inline(always)]
    fn immediate(&self, word: Word) -> Result<u32, Trap> {
        let a = self.x[word.rs1()];
        let b = word.immediate_i();
        let amount = word.rs2() as u32;
        Ok(match (word.funct3(), word.funct7()) {
            (0b000, _) => a.wrapping_add(b),
            (0b001, 0) => a << amount,
            (0b010, _) => u32::from((a as i32) < b as i32),
            (0b011, _) => u32::from(a < b),
            (0b100, _) => a ^ b,
            (0b101, 0) => a >> amount,
            (0b101, 0x20) => (a as i32 >> amount) as u32,
            (0b110, _) => a | b,
            (0b111, _) => a & b,
            _ => return Err(Trap::IllegalInstruction),
        })
    }

    #[inline(always)]
    fn register(&self, word: Word) -> Result<u32, Trap> {
        let a = self.x[word.rs1()];
        let b = self.x[word.rs2()];
        Ok(match (word.funct7(), word.funct3()) {
            (0, 0b000) => a.wrapping_add(b),
            (0x20, 0b000) => a.wrapping_sub(b),
            (0, 0b001) => a << (b & 31),
            (0, 0b010) => u32::from((a as i32) < b as i32),
            (0, 0b011) => u32::from(a < b),
            (0, 0b100) => a ^ b,
            (0, 0b101) => a >> (b & 31),
            (0x20, 0b101) => (a as i32 >> (b & 31)) as u32,
            (0, 0b110) => a | b,
            (0, 0b111) => a & b,
            _ => return Err(Trap::IllegalInstruction),
        })
    }

    #[inline(always)]
    fn is_taken(&self, word: Word) -> Result<bool, Trap> {
        let a = self.x[word.rs1()];
        let b = self.x[word.rs2()];
        Ok(match word.funct3() {
            0b000 => a == b,
            0b001 => a != b,
            0b100 => (a as i32) < b as i32,
            0b101 => a as i32 >= b as i32,
            0b110 => a < b,
            0b111 => a >= b,
            _ => return Err(Trap::IllegalInstruction),
        })
    }

    /// One turn: an instruction fetched, decoded and executed (RISC-V unprivileged ISA 20191213, chapters 2 and 24).
    #[inline(always)]
    fn step(&mut self, memory: &mut Memory) -> Result<Outcome, Trap> {
        let fetched = memory.bytes(self.pc, EXECUTE).ok_or(Trap::InstructionAccess)?;
        let word = Word(u32::from_le_bytes(fetched));
        match word.0 & 0x7f {
            0b0110111 => self.set(word.rd(), word.immediate_u()),
            0b0010111 => self.set(word.rd(), self.pc.wrapping_add(word.immediate_u())),
            0b1101111 => {
                let target = self.pc.wrapping_add(word.immediate_j());
                return self.link_and_jump(word.rd(), target);
            }
            0b1100111 if word.funct3() == 0 => {
                let target = self.x[word.rs1()].wrapping_add(word.immediate_i()) & !1;
                return self.link_and_jump(word.rd(), target);
            }
            0b1100011 => {
                if self.is_taken(word)? {
                    return self.jump(self.pc.wrapping_add(word.immediate_b()));
                }
            }
            0b0000011 => {
                let value = self.load(memory, word)?;
                self.set(word.rd(), value);
            }
            0b0100011 => self.store(memory, word)?,
            0b0010011 => self.set(word.rd(), self.immediate(word)?),
            0b0110011 => self.set(word.rd(), self.register(word)?),
            0b0001111 if word.funct3() == 0 => {}
            0b1110011 if word.0 == 0x73 => return Ok(Outcome::Call),
            0b1110011 if word.0 == 0x10_0073 => return Err(Trap::Breakpoint),
            _ => return Err(Trap::IllegalInstruction),
        }
        self.pc = self.pc.wrapping_add(4);
        Ok(Outcome::Next)
    }

    /// Turns up to an ECALL, and how many there were, the last one among them.
    fn run(&mut self, memory: &mut Memory) -> (u64, Result<(), Trap>) {
        let mut count = 0;
        loop {
            count += 1;
            match self.step(memory) {
                Ok(Outcome::Next) => {}
                Ok(Outcome::Call) => return (count, Ok(())),
                Err(trap) => return (count, Err(trap)),
            }
        }
    }
}

fn word_at(file: &[u8], offset: usize) -> Option<u32> {
    let bytes = file.get(offset..offset.checked_add(4)?)?;
    Some(u32::from_le_bytes(bytes.try_into().ok()?))
}

fn half_at(file: &[u8], offset: usize) -> Option<usize> {
    let bytes = file.get(offset..offset.checked_add(2)?)?;
    Some(usize::from(u16::from_le_bytes(bytes.try_into().ok()?)))
}

/// The hart and the memory that an ELF32 executable starts with (System V gABI, chapters 4 and 5).
fn load_executable(file: &[u8]) -> Option<(Hart, Memory)> {
    let mut memory = Memory::new();
    let table = word_at(file, 28)? as usize;
    for index in 0..half_at(file, 44)? {
        let header = table + 32 * index;
        let field = |place: usize| word_at(file, header + 4 * place);
        let (kind, offset, start) = (field(0)?, field(1)? as usize, field(2)?);
        let (file_size, memory_size, flags) = (field(4)? as usize, field(5)?, field(6)?);
        if kind == 1 {
            memory.map(start, memory_size, (flags & 7) as u8);
            memory.fill(start, file.get(offset..offset + file_size)?);
        }
    }
    memory.map(INPUT_HEADER, PAGE_SIZE as u32, READ | WRITE);
    memory.map(STACK, STACK_SIZE, READ | WRITE);
    let mut hart = Hart {
        pc: word_at(file, 24)?,
        x: [0; 32],
    };
    hart.x[2] = STACK + STACK_SIZE;
    hart.x[10] = INPUT_HEADER;
    Some((hart, memory))
}

/// What a guest did: how it ended, in how many turns, and what it put out.
struct Run {
    end: String,
    instructions: u64,
    output: Vec<u8>,
}

/// The bytes of a put, or the negated error number that answers it.
fn put(memory: &mut Memory, start: u32, count: u32) -> Result<Vec<u8>, u32> {
    if count > 4096 {
        return Err(22u32.wrapping_neg());
    }
    (0..count)
        .map(|i| {
            let address = start.checked_add(i)?;
            memory.bytes(address, READ).map(|[byte]| byte)
        })
        .collect::<Option<Vec<u8>>>()
        .ok_or(14u32.wrapping_neg())
}

/// Runs a guest of one thread to its end.
fn run_guest(hart: &mut Hart, memory: &mut Memory) -> Run {
    let mut instructions = 0;
    let mut output = Vec::new();
    let end = loop {
        let (count, outcome) = hart.run(memory);
        instructions += count;
        let trapped = match outcome {
            Err(trap) => Some(trap),
            Ok(()) => match hart.x[17] {
                0 => break format!("exit {}", hart.x[10]),
                1 => {
                    hart.x[10] = match put(memory, hart.x[10], hart.x[11]) {
                        Ok(bytes) => {
                            output.extend_from_slice(&bytes);
                            hart.x[11]
                        }
                        Err(error) => error,
                    };
                    None
                }
                3 => break "exit 0".to_string(),
                5 => {
                    hart.x[10] = 0;
                    None
                }
                _ => Some(Trap::BadCall),
            },
        };
        if let Some(trap) = trapped {
            break format!("trap 0 {:08x} {}", hart.pc, trap as u8);
        }
        hart.pc = hart.pc.wrapping_add(4);
    };
    Run {
        end,
        instructions,
        output,
    }
}

fn main() -> ExitCode {
    let Some(name) = std::env::args().nth(1) else {
        eprintln!("usage: interpreter GUEST.elf");
        return ExitCode::from(2);
    };
    let file = match std::fs::read(&name) {
        Ok(file) => file,
        Err(error) => {
            eprintln!("{name}: {error}");
            return ExitCode::from(6);
        }
    };
    let Some((mut hart, mut memory)) = load_executable(&file) else {
        eprintln!("{name}: not an executable");
        return ExitCode::from(3);
    };
    let run = run_guest(&mut hart, &mut memory);
    println!("end {}", run.end);
    println!("instructions {}", run.instructions);
    println!("output {}", run.output.len());
    println!("{}", String::from_utf8_lossy(&run.output));
    ExitCode::SUCCESS
}

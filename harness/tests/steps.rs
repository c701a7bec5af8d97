//! Single instructions: all 256 bytes from many states, with everything compared after each.

use uxn_filter_harness::calls::{Machine, Reply, BROKE, WENT_ON};
use uxn_filter_harness::pair::{Pair, Part};
use uxn_filter_harness::random::{seed, Random};

const POINTERS: [u8; 9] = [0, 1, 2, 3, 4, 5, 253, 254, 255];
const COUNTERS: [u16; 8] = [
    0xfffd, 0xfffe, 0xffff, 0x0000, 0x0001, 0x007f, 0x0080, 0xff80,
];
/// Ends of the device page, of the zero page, of memory (as a pair) and of a signed byte.
const OPERANDS: [u8; 6] = [0x00, 0x01, 0x7f, 0x80, 0xfe, 0xff];
/// Memory is filled anew after so many states.
const MEMORY_LIFE: u64 = 256;

struct States {
    pair: Pair,
    random: Random,
    made: u64,
}

impl States {
    fn new() -> States {
        States {
            pair: Pair::new(seed()),
            random: Random::new(seed()),
            made: 0,
        }
    }

    fn counter(&mut self) -> u16 {
        if self.random.one_in(3) {
            self.random.choose(&COUNTERS)
        } else {
            self.random.short()
        }
    }

    fn pointer(&mut self) -> u8 {
        if self.random.one_in(2) {
            self.random.choose(&POINTERS)
        } else {
            self.random.byte()
        }
    }

    /// One step of `byte` on random buffers, with `tops` on top of both stacks, the last one
    /// topmost.
    fn step(&mut self, byte: u8, machine: Machine, tops: &[u8]) -> Reply {
        if self.made.is_multiple_of(MEMORY_LIFE) {
            self.pair.fill_random(Part::Memory, &mut self.random);
        }
        self.made += 1;
        for part in [Part::DevicePage, Part::Working, Part::Ret] {
            self.pair.fill_random(part, &mut self.random);
        }
        for (part, pointer) in [(Part::Working, machine.wp), (Part::Ret, machine.rp)] {
            for (below, &top) in tops.iter().rev().enumerate() {
                let at = pointer.wrapping_sub(below as u8 + 1);
                self.pair.put(part, usize::from(at), &[top]);
            }
        }
        self.pair
            .put(Part::Memory, usize::from(machine.pc), &[byte]);
        self.pair.machine = Machine {
            wp_high: self.pointer(),
            rp_high: self.pointer(),
            ..machine
        };
        self.pair.step()
    }
}

#[test]
fn every_byte_with_pointers_and_counters_at_the_ends() {
    let mut states = States::new();
    for byte in 0..=255 {
        for wp in POINTERS {
            for rp in POINTERS {
                for pc in COUNTERS {
                    states.step(byte, Machine::at(pc, wp, rp), &[]);
                }
            }
        }
    }
    states.pair.say_total("steps, pointers and counters");
}

/// Among them 16-bit accesses at FFFF, at 00FF of the zero page and at port FF, and relative jumps
/// and accesses of -128, -2, -1, 0, 1 and 127 from both ends of memory.
#[test]
fn every_byte_with_operands_at_the_ends() {
    let mut states = States::new();
    for byte in 0..=255 {
        for pc in COUNTERS {
            for second in OPERANDS {
                for top in OPERANDS {
                    let mut tops = [0; 6];
                    for below in &mut tops[..4] {
                        *below = states.random.choose(&OPERANDS);
                    }
                    tops[4..].copy_from_slice(&[second, top]);
                    let (wp, rp) = (states.pointer(), states.pointer());
                    states.step(byte, Machine::at(pc, wp, rp), &tops);
                }
            }
        }
    }
    states.pair.say_total("steps, operands");
}

/// All 65,536 pairs of operands of each 8-bit operation that computes.
#[test]
fn every_pair_of_operands() {
    let mut states = States::new();
    for byte in [
        0x08, 0x09, 0x0a, 0x0b, 0x18, 0x19, 0x1a, 0x1b, 0x1c, 0x1d, 0x1e, 0x1f,
    ] {
        for second in 0..=255 {
            for top in 0..=255 {
                if states.made.is_multiple_of(MEMORY_LIFE) {
                    states.pair.make_dirty(&mut states.random);
                }
                states.made += 1;
                states.pair.put(Part::Memory, 0x0100, &[byte]);
                states.pair.put(Part::Working, 7, &[second, top]);
                states.pair.machine = Machine::at(0x0100, 9, 0);
                states.pair.step();
            }
        }
    }
    states.pair.say_total("steps, all pairs of bytes");
}

/// DEO in any mode writes the port on top of its stack, DEO2 also the next one, which of FF is 00; no
/// other byte writes any.
#[test]
fn every_byte_with_every_port() {
    let mut states = States::new();
    for byte in 0..=255u8 {
        for port in 0..=255u8 {
            let machine = Machine::at(states.counter(), states.pointer(), states.pointer());
            let reply = states.step(byte, machine, &[port]);
            let (sent, ports) = match byte & 0x3f {
                0x17 => (1, [port, 0]),
                0x37 => (2, [port, port.wrapping_add(1)]),
                _ => (0, [0, 0]),
            };
            assert_eq!((reply.sent, reply.ports), (sent, ports), "byte {byte:02x}");
            assert_eq!(reply.answer, if byte == 0 { BROKE } else { WENT_ON });
        }
    }
    states.pair.say_total("steps, ports");
}

/// MUL2 of numbers of every length in bits: the least one, the greatest one and one between them.
#[test]
fn products_of_every_length() {
    let mut states = States::new();
    let mut numbers = vec![0];
    for bits in 1..=16 {
        let (least, greatest) = (1 << (bits - 1), u16::MAX >> (16 - bits));
        let between = states.random.short() & greatest | least;
        numbers.extend([least, greatest, between]);
    }
    for byte in [0x3a, 0x7a, 0xba, 0xfa] {
        for second in &numbers {
            for top in &numbers {
                let tops = [second.to_be_bytes(), top.to_be_bytes()].concat();
                let machine = Machine::at(states.counter(), states.pointer(), states.pointer());
                states.step(byte, machine, &tops);
            }
        }
    }
    states.pair.say_total("steps, products");
}

#[test]
fn every_byte_from_random_states() {
    let mut states = States::new();
    for _ in 0..6_000 {
        for byte in 0..=255 {
            let machine = Machine::at(states.counter(), states.pointer(), states.pointer());
            states.step(byte, machine, &[]);
        }
    }
    states.pair.say_total("steps, random states");
}

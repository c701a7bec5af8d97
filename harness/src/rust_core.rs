//! A Uxn core in safe Rust for the speed comparison: arrays, and one match over the instruction
//! byte.

use crate::calls::{
    refused, Buffers, Machine, Reply, BROKE, LOADED, MEMORY, PAGE, PAUSED, PROGRAM_LIMIT,
    PROGRAM_START, RECORD, SPENT, WATCH_NONE,
};

struct Core<'a> {
    memory: &'a mut [u8; MEMORY],
    device_page: &'a mut [u8; PAGE],
    working: &'a mut [u8; PAGE],
    ret: &'a mut [u8; PAGE],
    pc: u16,
    wp: u8,
    rp: u8,
    wp_high: u8,
    rp_high: u8,
    /// A port, or a number above 255.
    watch: u16,
    /// Whether the step wrote the watched port.
    paused: bool,
}

/// The arms of the match: for each operation its byte in the eight modes, and what follows it.
macro_rules! operate {
    ($core:ident, $byte:expr, { $($exception:literal => $action:expr,)* },
     $($w:literal $w2:literal $r:literal $r2:literal $kw:literal $kw2:literal $kr:literal $kr2:literal
       $operation:ident $($then:block)?,)*) => {
        match $byte {
            $($exception => $action,)*
            $(
                $w => {
                    $core.$operation::<false, false, false>();
                    $($then)?
                }
                $w2 => {
                    $core.$operation::<true, false, false>();
                    $($then)?
                }
                $r => {
                    $core.$operation::<false, true, false>();
                    $($then)?
                }
                $r2 => {
                    $core.$operation::<true, true, false>();
                    $($then)?
                }
                $kw => {
                    $core.$operation::<false, false, true>();
                    $($then)?
                }
                $kw2 => {
                    $core.$operation::<true, false, true>();
                    $($then)?
                }
                $kr => {
                    $core.$operation::<false, true, true>();
                    $($then)?
                }
                $kr2 => {
                    $core.$operation::<true, true, true>();
                    $($then)?
                }
            )*
        }
    };
}

/// An operation from its operands, listed with the top first, and what it does with them. `S` is
/// the 16-bit form, `R` return mode, `K` keep.
macro_rules! operation {
    ($name:ident($core:ident, $($operand:ident: $size:ident),+) $body:block) => {
        #[inline(always)]
        fn $name<const S: bool, const R: bool, const K: bool>(&mut self) {
            let $core = self;
            let kept = if R { $core.rp } else { $core.wp };
            $(let $operand = $core.$size::<S, R>();)+
            if K {
                if R {
                    $core.rp = kept;
                } else {
                    $core.wp = kept;
                }
            }
            $body
        }
    };
}

/// An operation that pushes one result computed from `b` on top of `a`.
macro_rules! computed {
    ($name:ident, $push:ident, |$a:ident, $b:ident| $result:expr) => {
        operation!($name(core, $b: pop, $a: pop) { core.$push::<S, R>($result) });
    };
}

/// A load from a page, which ends at FF.
macro_rules! page {
    ($load:ident, $page:ident) => {
        operation!($load(core, at: pop8) {
            core.push8::<S, R>(u16::from(core.$page[usize::from(at as u8)]));
            if S {
                let next = (at as u8).wrapping_add(1);
                core.push8::<S, R>(u16::from(core.$page[usize::from(next)]));
            }
        });
    };
}

/// MUL for a chip without a multiplier, as in the library: by shifts and adds, a turn for each bit
/// of the smaller number.
#[inline(always)]
fn product(a: u16, b: u16) -> u16 {
    let mut term = a.max(b);
    let mut rest = a.min(b);
    let mut sum = 0u16;
    while rest > 0 {
        if rest & 1 == 1 {
            sum = sum.wrapping_add(term);
        }
        term <<= 1;
        rest >>= 1;
    }
    sum
}

impl Core<'_> {
    #[inline(always)]
    fn pop8<const S: bool, const R: bool>(&mut self) -> u16 {
        if R {
            self.rp = self.rp.wrapping_sub(1);
            u16::from(self.ret[usize::from(self.rp)])
        } else {
            self.wp = self.wp.wrapping_sub(1);
            u16::from(self.working[usize::from(self.wp)])
        }
    }

    #[inline(always)]
    fn pop16<const S: bool, const R: bool>(&mut self) -> u16 {
        let low = self.pop8::<S, R>();
        self.pop8::<S, R>() << 8 | low
    }

    #[inline(always)]
    fn pop<const S: bool, const R: bool>(&mut self) -> u16 {
        if S {
            self.pop16::<S, R>()
        } else {
            self.pop8::<S, R>()
        }
    }

    #[inline(always)]
    fn push8<const S: bool, const R: bool>(&mut self, value: u16) {
        if R {
            self.ret[usize::from(self.rp)] = value as u8;
            self.rp = self.rp.wrapping_add(1);
        } else {
            self.working[usize::from(self.wp)] = value as u8;
            self.wp = self.wp.wrapping_add(1);
        }
    }

    #[inline(always)]
    fn push<const S: bool, const R: bool>(&mut self, value: u16) {
        if S {
            self.push8::<S, R>(value >> 8);
        }
        self.push8::<S, R>(value);
    }

    /// A push on the other stack.
    #[inline(always)]
    fn other<const S: bool, const R: bool>(&mut self, value: u16) {
        if R {
            self.push::<S, false>(value);
        } else {
            self.push::<S, true>(value);
        }
    }

    #[inline(always)]
    fn load16(&self, address: u16) -> u16 {
        u16::from_be_bytes([
            self.memory[usize::from(address)],
            self.memory[usize::from(address.wrapping_add(1))],
        ])
    }

    #[inline(always)]
    fn load<const S: bool, const R: bool>(&mut self, address: u16) {
        if S {
            let value = self.load16(address);
            self.push::<S, R>(value);
        } else {
            self.push8::<S, R>(u16::from(self.memory[usize::from(address)]));
        }
    }

    #[inline(always)]
    fn store<const S: bool>(&mut self, address: u16, value: u16) {
        if S {
            self.memory[usize::from(address)] = (value >> 8) as u8;
            self.memory[usize::from(address.wrapping_add(1))] = value as u8;
        } else {
            self.memory[usize::from(address)] = value as u8;
        }
    }

    #[inline(always)]
    fn send(&mut self, port: u8, byte: u16) {
        self.device_page[usize::from(port)] = byte as u8;
        self.paused |= u16::from(port) == self.watch;
    }

    #[inline(always)]
    fn near(&self, offset: u16) -> u16 {
        self.pc.wrapping_add_signed(i16::from(offset as u8 as i8))
    }

    #[inline(always)]
    fn go<const S: bool>(&mut self, address: u16) {
        self.pc = if S { address } else { self.near(address) };
    }

    operation!(inc(core, a: pop) { core.push::<S, R>(a.wrapping_add(1)) });
    operation!(pop_one(core, _a: pop) {});
    operation!(nip(core, b: pop, _a: pop) { core.push::<S, R>(b) });
    operation!(swp(core, b: pop, a: pop) {
        core.push::<S, R>(b);
        core.push::<S, R>(a);
    });
    operation!(rot(core, c: pop, b: pop, a: pop) {
        core.push::<S, R>(b);
        core.push::<S, R>(c);
        core.push::<S, R>(a);
    });
    operation!(dup(core, a: pop) {
        core.push::<S, R>(a);
        core.push::<S, R>(a);
    });
    operation!(ovr(core, b: pop, a: pop) {
        core.push::<S, R>(a);
        core.push::<S, R>(b);
        core.push::<S, R>(a);
    });
    computed!(equ, push8, |a, b| u16::from(a == b));
    computed!(neq, push8, |a, b| u16::from(a != b));
    computed!(gth, push8, |a, b| u16::from(a > b));
    computed!(lth, push8, |a, b| u16::from(a < b));
    operation!(jmp(core, to: pop) { core.go::<S>(to) });
    operation!(jcn(core, to: pop, condition: pop8) {
        if condition != 0 {
            core.go::<S>(to);
        }
    });
    operation!(jsr(core, to: pop) {
        core.other::<true, R>(core.pc);
        core.go::<S>(to);
    });
    operation!(sth(core, a: pop) { core.other::<S, R>(a) });
    page!(ldz, memory);
    operation!(stz(core, at: pop8, a: pop) {
        if S {
            let next = (at as u8).wrapping_add(1);
            core.memory[usize::from(at as u8)] = (a >> 8) as u8;
            core.memory[usize::from(next)] = a as u8;
        } else {
            core.memory[usize::from(at as u8)] = a as u8;
        }
    });
    operation!(ldr(core, to: pop8) { core.load::<S, R>(core.near(to)) });
    operation!(str(core, to: pop8, a: pop) { core.store::<S>(core.near(to), a) });
    operation!(lda(core, to: pop16) { core.load::<S, R>(to) });
    operation!(sta(core, to: pop16, a: pop) { core.store::<S>(to, a) });
    page!(dei, device_page);
    operation!(deo(core, port: pop8, a: pop) {
        if S {
            core.send(port as u8, a >> 8);
            core.send((port as u8).wrapping_add(1), a);
        } else {
            core.send(port as u8, a);
        }
    });
    computed!(add, push, |a, b| a.wrapping_add(b));
    computed!(sub, push, |a, b| a.wrapping_sub(b));
    computed!(mul, push, |a, b| product(a, b));
    computed!(div, push, |a, b| a.checked_div(b).unwrap_or(0));
    computed!(and, push, |a, b| a & b);
    computed!(ora, push, |a, b| a | b);
    computed!(eor, push, |a, b| a ^ b);
    operation!(sft(core, b: pop8, a: pop) { core.push::<S, R>(a >> (b & 15) << (b >> 4)) });

    #[inline(always)]
    fn literal<const S: bool, const R: bool>(&mut self) {
        self.load::<S, R>(self.pc);
        self.pc = self.pc.wrapping_add(1 + u16::from(S));
    }

    #[inline(always)]
    fn offset(&mut self) -> u16 {
        let offset = self.load16(self.pc);
        self.pc = self.pc.wrapping_add(2);
        offset
    }

    /// After each step the high marks are raised to the pointers.
    #[inline(always)]
    fn raise(&mut self) {
        if self.wp_high < self.wp {
            self.wp_high = self.wp;
        }
        if self.rp_high < self.rp {
            self.rp_high = self.rp;
        }
    }

    fn run(mut self, budget: u32) -> Reply {
        // The record in a local, so that it stays in processor registers.
        let core = &mut self;
        let mut left = budget;
        let mut answer = SPENT;
        while left > 0 {
            left -= 1;
            let byte = core.memory[usize::from(core.pc)];
            core.pc = core.pc.wrapping_add(1);
            operate!(core, byte,
                {
                    0x00 => {
                        answer = BROKE;
                        core.raise();
                        break;
                    },
                    0x20 => {
                        let offset = core.offset();
                        if core.pop8::<false, false>() != 0 {
                            core.pc = core.pc.wrapping_add(offset);
                        }
                    },
                    0x40 => {
                        let offset = core.offset();
                        core.pc = core.pc.wrapping_add(offset);
                    },
                    0x60 => {
                        let offset = core.offset();
                        core.push::<true, true>(core.pc);
                        core.pc = core.pc.wrapping_add(offset);
                    },
                    0x80 => core.literal::<false, false>(),
                    0xa0 => core.literal::<true, false>(),
                    0xc0 => core.literal::<false, true>(),
                    0xe0 => core.literal::<true, true>(),
                },
                0x01 0x21 0x41 0x61 0x81 0xa1 0xc1 0xe1 inc,
                0x02 0x22 0x42 0x62 0x82 0xa2 0xc2 0xe2 pop_one,
                0x03 0x23 0x43 0x63 0x83 0xa3 0xc3 0xe3 nip,
                0x04 0x24 0x44 0x64 0x84 0xa4 0xc4 0xe4 swp,
                0x05 0x25 0x45 0x65 0x85 0xa5 0xc5 0xe5 rot,
                0x06 0x26 0x46 0x66 0x86 0xa6 0xc6 0xe6 dup,
                0x07 0x27 0x47 0x67 0x87 0xa7 0xc7 0xe7 ovr,
                0x08 0x28 0x48 0x68 0x88 0xa8 0xc8 0xe8 equ,
                0x09 0x29 0x49 0x69 0x89 0xa9 0xc9 0xe9 neq,
                0x0a 0x2a 0x4a 0x6a 0x8a 0xaa 0xca 0xea gth,
                0x0b 0x2b 0x4b 0x6b 0x8b 0xab 0xcb 0xeb lth,
                0x0c 0x2c 0x4c 0x6c 0x8c 0xac 0xcc 0xec jmp,
                0x0d 0x2d 0x4d 0x6d 0x8d 0xad 0xcd 0xed jcn,
                0x0e 0x2e 0x4e 0x6e 0x8e 0xae 0xce 0xee jsr,
                0x0f 0x2f 0x4f 0x6f 0x8f 0xaf 0xcf 0xef sth,
                0x10 0x30 0x50 0x70 0x90 0xb0 0xd0 0xf0 ldz,
                0x11 0x31 0x51 0x71 0x91 0xb1 0xd1 0xf1 stz,
                0x12 0x32 0x52 0x72 0x92 0xb2 0xd2 0xf2 ldr,
                0x13 0x33 0x53 0x73 0x93 0xb3 0xd3 0xf3 str,
                0x14 0x34 0x54 0x74 0x94 0xb4 0xd4 0xf4 lda,
                0x15 0x35 0x55 0x75 0x95 0xb5 0xd5 0xf5 sta,
                0x16 0x36 0x56 0x76 0x96 0xb6 0xd6 0xf6 dei,
                0x17 0x37 0x57 0x77 0x97 0xb7 0xd7 0xf7 deo {
                    if core.paused {
                        answer = PAUSED;
                        core.raise();
                        break;
                    }
                },
                0x18 0x38 0x58 0x78 0x98 0xb8 0xd8 0xf8 add,
                0x19 0x39 0x59 0x79 0x99 0xb9 0xd9 0xf9 sub,
                0x1a 0x3a 0x5a 0x7a 0x9a 0xba 0xda 0xfa mul,
                0x1b 0x3b 0x5b 0x7b 0x9b 0xbb 0xdb 0xfb div,
                0x1c 0x3c 0x5c 0x7c 0x9c 0xbc 0xdc 0xfc and,
                0x1d 0x3d 0x5d 0x7d 0x9d 0xbd 0xdd 0xfd ora,
                0x1e 0x3e 0x5e 0x7e 0x9e 0xbe 0xde 0xfe eor,
                0x1f 0x3f 0x5f 0x7f 0x9f 0xbf 0xdf 0xff sft,
            );
            core.raise();
        }
        Reply {
            machine: Machine {
                pc: core.pc,
                wp: core.wp,
                rp: core.rp,
                wp_high: core.wp_high,
                rp_high: core.rp_high,
            },
            steps: budget - left,
            number: 0,
            answer,
            verdict: 0,
            sent: 0,
            ports: [0; 2],
        }
    }
}

/// The buffers as arrays, or the number of the first that has a wrong length.
fn core_on<'a>(machine: Machine, lent: Buffers<'a>, watch: u16) -> Result<Core<'a>, u8> {
    Ok(Core {
        memory: lent.memory.try_into().map_err(|_| 1)?,
        device_page: lent.device_page.try_into().map_err(|_| 2)?,
        working: lent.working.try_into().map_err(|_| 3)?,
        ret: lent.ret.try_into().map_err(|_| 4)?,
        pc: machine.pc,
        wp: machine.wp,
        rp: machine.rp,
        wp_high: machine.wp_high,
        rp_high: machine.rp_high,
        watch,
        paused: false,
    })
}

const START: Machine = Machine::at(PROGRAM_START, 0, 0);

pub fn run(machine: Machine, lent: Buffers, budget: u32, watch: u16) -> Reply {
    match core_on(machine, lent, watch) {
        Ok(core) => core.run(budget),
        Err(number) => refused(machine, number),
    }
}

pub fn frame(machine: Machine, lent: Buffers, record: &[u8], budget: u32) -> Reply {
    let core = match core_on(START, lent, WATCH_NONE) {
        Ok(core) => core,
        Err(number) => return refused(machine, number),
    };
    let Ok(record) = <&[u8; RECORD]>::try_from(record) else {
        return refused(machine, 7);
    };
    let length = usize::from(record[0]);
    if length > RECORD - 2 || record[2 + length..].iter().any(|&byte| byte != 0) {
        return refused(machine, 8);
    }
    let device_page = core.device_page;
    device_page[0xf2] = 0;
    core.memory[0x80..0x100].copy_from_slice(record);
    let again = Core {
        device_page: &mut *device_page,
        ..core
    };
    let ran = again.run(budget);
    let verdict = if ran.answer == BROKE {
        device_page[0xf2]
    } else {
        0
    };
    Reply { verdict, ..ran }
}

pub fn load(machine: Machine, lent: Buffers, program: &[u8]) -> Reply {
    let core = match core_on(machine, lent, WATCH_NONE) {
        Ok(core) => core,
        Err(number) => return refused(machine, number),
    };
    if program.is_empty() || program.len() > PROGRAM_LIMIT {
        return refused(machine, 5);
    }
    core.memory.fill(0);
    core.memory[usize::from(PROGRAM_START)..][..program.len()].copy_from_slice(program);
    core.device_page.fill(0);
    core.working.fill(0);
    core.ret.fill(0);
    Reply {
        machine: START,
        answer: LOADED,
        ..refused(START, 0)
    }
}

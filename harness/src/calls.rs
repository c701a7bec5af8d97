//! The C interface: records, replies and the shape of the calls on a machine.

pub const MEMORY: usize = 65_536;
pub const PAGE: usize = 256;
/// A frame record: data length, node number, data, zeros to the end.
pub const RECORD: usize = 128;
/// The same in the old form.
pub const OLD_RECORD: usize = 64;
pub const PROGRAM_START: u16 = 0x0100;
/// A program fills memory from 0100 to FFFF at most.
pub const PROGRAM_LIMIT: usize = MEMORY - PROGRAM_START as usize;
/// A longer program is not admitted.
pub const ADMIT_LIMIT: usize = 4_096;
/// Bytes of a sheet for each program byte: mark, working depth, return depth, the program byte, the
/// routine (two bytes), two zeros.
pub const SHEET_RECORD: usize = 8;
/// The same in the old form of a sheet.
pub const OLD_SHEET_RECORD: usize = 4;

/// Numbers that are no device, 16 and up: ends, and some that would be 3, or have the port of
/// device 3, if only their low 8, 16, 24 or 31 bits were looked at or 16 times the number wrapped.
pub const NO_DEVICES: [u32; 12] = [
    16,
    255,
    256,
    256 + 3,
    (1 << 12) + 3,
    65_535,
    65_536 + 3,
    (1 << 24) + 3,
    (1 << 28) + 3,
    1 << 31,
    (1 << 31) + 3,
    u32::MAX,
];

pub const ADMITTED: u8 = 0;

pub const REFUSED: u8 = 0;
pub const LOADED: u8 = 1;
pub const WENT_ON: u8 = 2;
pub const BROKE: u8 = 3;
pub const SPENT: u8 = 4;
pub const IGNORED: u8 = 5;
pub const PAUSED: u8 = 6;

/// Watches nothing, as does every number above 255; a smaller one is the port that is watched.
pub const WATCH_NONE: u16 = 256;

/// Numbers that are no port: ends, and some that would be port 0, 1, 3 or 255 if only their low 8 or 15
/// bits were looked at.
pub const NO_PORTS: [u16; 7] = [WATCH_NONE, 257, 256 + 3, 511, 32_768, 32_768 + 3, 65_535];

/// The machine record: program counter, working and return stack pointer, and the high mark of each.
#[repr(C)]
#[derive(Clone, Copy, PartialEq, Eq, Debug, Default)]
pub struct Machine {
    pub pc: u16,
    pub wp: u8,
    pub rp: u8,
    pub wp_high: u8,
    pub rp_high: u8,
}

impl Machine {
    /// Counter and pointers, with both high marks 0.
    pub const fn at(pc: u16, wp: u8, rp: u8) -> Machine {
        Machine {
            pc,
            wp,
            rp,
            wp_high: 0,
            rp_high: 0,
        }
    }
}

#[repr(C)]
#[derive(Clone, Copy, PartialEq, Eq, Debug)]
pub struct Reply {
    pub machine: Machine,
    pub steps: u32,
    pub number: u8,
    pub answer: u8,
    pub verdict: u8,
    /// How many ports a step wrote, and which, in the order of writing; 0 where there is none.
    pub sent: u8,
    pub ports: [u8; 2],
}

/// What a call that writes to a lent output replies: how many bytes it wrote, a line, the number of
/// the refusal or 0.
#[repr(C)]
#[derive(Clone, Copy, PartialEq, Eq, Debug)]
pub struct Written {
    pub length: usize,
    pub line: u32,
    pub number: u8,
}

/// An address with the depths and the routine that it has on a way from 0100.
#[repr(C)]
#[derive(Clone, Copy, PartialEq, Eq, Debug, Default)]
pub struct Place {
    pub at: u16,
    pub work: u8,
    pub ret: u8,
    pub routine: u16,
}

/// Why a program is refused: the number of the refusal or 0; with 11 the rule that fails, the number
/// that it speaks of, the place of the instruction, where it goes on, and another place.
#[repr(C)]
#[derive(Clone, Copy, PartialEq, Eq, Debug, Default)]
pub struct Why {
    pub number: u8,
    pub rule: u8,
    pub count: u16,
    pub here: Place,
    pub next: Place,
    pub other: Place,
}

const _: () = assert!(size_of::<Machine>() == 6 && size_of::<Reply>() == 20);
const _: () = assert!(size_of::<Written>() == 16);
const _: () = assert!(size_of::<Place>() == 6 && size_of::<Why>() == 22);

/// A refusal: its number, the record as it was given, and 0 in all else.
pub fn refused(machine: Machine, number: u8) -> Reply {
    Reply {
        machine,
        steps: 0,
        number,
        answer: REFUSED,
        verdict: 0,
        sent: 0,
        ports: [0; 2],
    }
}

/// The four buffers that every call is lent.
pub struct Buffers<'a> {
    pub memory: &'a mut [u8],
    pub device_page: &'a mut [u8],
    pub working: &'a mut [u8],
    pub ret: &'a mut [u8],
}

/// Four buffers of the right lengths, all zero.
#[derive(Clone, PartialEq, Eq)]
pub struct Owned {
    pub memory: Vec<u8>,
    pub device_page: Vec<u8>,
    pub working: Vec<u8>,
    pub ret: Vec<u8>,
}

impl Owned {
    pub fn new() -> Owned {
        Owned {
            memory: vec![0; MEMORY],
            device_page: vec![0; PAGE],
            working: vec![0; PAGE],
            ret: vec![0; PAGE],
        }
    }

    /// The same bytes in place.
    pub fn copy_from(&mut self, from: &Owned) {
        self.memory.copy_from_slice(&from.memory);
        self.device_page.copy_from_slice(&from.device_page);
        self.working.copy_from_slice(&from.working);
        self.ret.copy_from_slice(&from.ret);
    }

    pub fn lend(&mut self) -> Buffers<'_> {
        Buffers {
            memory: &mut self.memory,
            device_page: &mut self.device_page,
            working: &mut self.working,
            ret: &mut self.ret,
        }
    }
}

impl Default for Owned {
    fn default() -> Owned {
        Owned::new()
    }
}

/// Declares a C function that has the shape of the calls, and gives it a safe face in slices.
#[macro_export]
macro_rules! c_call {
    (
        $name:ident = $symbol:literal
        $(, slice $slice:ident)? $(, mutable $mutable:ident)? $(, number $number:ident: $type:ty)*
    ) => {
        pub fn $name(
            machine: $crate::calls::Machine,
            lent: $crate::calls::Buffers,
            $($slice: &[u8],)?
            $($mutable: &mut [u8],)?
            $($number: $type,)*
        ) -> $crate::calls::Reply {
            extern "C" {
                #[link_name = $symbol]
                fn call(
                    machine: $crate::calls::Machine,
                    memory: *mut u8, memory_length: usize,
                    device_page: *mut u8, device_page_length: usize,
                    working: *mut u8, working_length: usize,
                    ret: *mut u8, ret_length: usize,
                    $($slice: *const u8, length: usize,)?
                    $($mutable: *mut u8, mutable_length: usize,)?
                    $($number: $type,)*
                ) -> $crate::calls::Reply;
            }
            // Each pointer is that of a live slice with its length, and no two of them overlap.
            unsafe {
                call(
                    machine,
                    lent.memory.as_mut_ptr(), lent.memory.len(),
                    lent.device_page.as_mut_ptr(), lent.device_page.len(),
                    lent.working.as_mut_ptr(), lent.working.len(),
                    lent.ret.as_mut_ptr(), lent.ret.len(),
                    $($slice.as_ptr(), $slice.len(),)?
                    $($mutable.as_mut_ptr(), $mutable.len(),)?
                    $($number,)*
                )
            }
        }
    };
}

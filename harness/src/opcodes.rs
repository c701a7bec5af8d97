//! Names of instruction bytes and mode bits, for the programs that the tests make.

pub const BRK: u8 = 0x00;
pub const JCI: u8 = 0x20;
pub const JMI: u8 = 0x40;
pub const JSI: u8 = 0x60;
pub const LIT: u8 = 0x80;
pub const LIT2: u8 = 0xa0;
pub const LITR: u8 = 0xc0;
pub const INC: u8 = 0x01;
pub const POP: u8 = 0x02;
pub const POP2: u8 = 0x22;
pub const POPR: u8 = 0x42;
pub const ROT2K: u8 = 0xa5;
pub const DUP: u8 = 0x06;
pub const JMP: u8 = 0x0c;
pub const JMP2: u8 = 0x2c;
pub const JMP2R: u8 = 0x6c;
pub const JCN: u8 = 0x0d;
pub const JSR2: u8 = 0x2e;
pub const STH: u8 = 0x0f;
pub const LDZ: u8 = 0x10;
pub const STZ: u8 = 0x11;
pub const LDR: u8 = 0x12;
pub const STR: u8 = 0x13;
pub const STA: u8 = 0x15;
pub const DEO: u8 = 0x17;
pub const DEO2: u8 = 0x37;
pub const SUB: u8 = 0x19;
pub const SFT: u8 = 0x1f;

/// Bits 5, 6 and 7.
pub const SHORT: u8 = 0x20;
pub const RETURN: u8 = 0x40;
pub const KEEP: u8 = 0x80;

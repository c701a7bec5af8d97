//! Tests and speed comparison of the proved filter machine.
//!
//! - `calls`, `library`: the C interface, and the proved library behind it;
//! - `second`: the second, independent machine; `pair`: both side by side;
//! - `second_admission`: the second admission; `reasons`: whether a reason is true of a program;
//!   `admissions`: the admissions side by side, and the reasons;
//! - `moves`: moves between an old form and a new one, each beside a second one; `records`: frame records
//!   of both forms, and the second moves of files of them;
//! - `watch`: demand 3, watched step by step;
//! - `linked`: the linked programs; `sentences`: the line of `explain`; `compiled`: C programs over the library; `disassembly`: its machine
//!   code;
//! - `listing`: programs written out to be read; `page`: blocks and tables of a page of `docs`;
//! - `soak`: rounds that go on for minutes;
//! - `random`, `assembler`, `opcodes`, `programs`, `filters`: where states and programs come from;
//! - `peers`, `rust_core`, `rust_admission`, `workloads`, `timing`, `counting`, `settings`: the speed
//!   comparison.

pub mod admissions;
pub mod assembler;
pub mod calls;
pub mod compiled;
pub mod counting;
pub mod disassembly;
pub mod filters;
pub mod library;
pub mod linked;
pub mod listing;
pub mod moves;
pub mod opcodes;
pub mod page;
pub mod pair;
pub mod peers;
pub mod programs;
pub mod random;
pub mod reasons;
pub mod records;
pub mod rust_admission;
pub mod rust_core;
pub mod second;
pub mod second_admission;
pub mod sentences;
pub mod settings;
pub mod soak;
pub mod timing;
pub mod watch;
pub mod workloads;

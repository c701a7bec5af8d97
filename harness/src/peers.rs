//! The cores that are compared for speed: the proved library, the C core by each compiler that was
//! there when this was built, and the core in safe Rust; and the admissions of library and Rust.

use crate::calls::{Buffers, Machine, Reply};
use crate::{library, rust_admission, rust_core};

#[derive(Clone, Copy, PartialEq, Eq)]
pub enum Kind {
    Library,
    C,
    Rust,
}

pub struct Core {
    pub name: &'static str,
    pub kind: Kind,
    pub run: fn(Machine, Buffers, u32, u16) -> Reply,
    pub frame: fn(Machine, Buffers, &[u8], u32) -> Reply,
    pub load: fn(Machine, Buffers, &[u8]) -> Reply,
}

#[cfg(peer_gcc)]
mod gcc {
    crate::c_call!(run = "gcc_run", number budget: u32, number watch: u16);
    crate::c_call!(frame = "gcc_frame", slice record, number budget: u32);
    crate::c_call!(load = "gcc_load", slice program);
}

#[cfg(peer_clang)]
mod clang {
    crate::c_call!(run = "clang_run", number budget: u32, number watch: u16);
    crate::c_call!(frame = "clang_frame", slice record, number budget: u32);
    crate::c_call!(load = "clang_load", slice program);
}

/// The library first.
pub fn cores() -> Vec<Core> {
    vec![
        Core {
            name: "library",
            kind: Kind::Library,
            run: library::run,
            frame: library::frame,
            load: library::load,
        },
        #[cfg(peer_gcc)]
        Core {
            name: "gcc",
            kind: Kind::C,
            run: gcc::run,
            frame: gcc::frame,
            load: gcc::load,
        },
        #[cfg(peer_clang)]
        Core {
            name: "clang",
            kind: Kind::C,
            run: clang::run,
            frame: clang::frame,
            load: clang::load,
        },
        Core {
            name: "rust",
            kind: Kind::Rust,
            run: rust_core::run,
            frame: rust_core::frame,
            load: rust_core::load,
        },
    ]
}

pub struct Admission {
    pub name: &'static str,
    pub admit: fn(&[u8], &mut [u8]) -> u8,
}

/// The library first, then safe Rust.
pub fn admissions() -> [Admission; 2] {
    [
        Admission {
            name: "library",
            admit: library::admit,
        },
        Admission {
            name: "rust",
            admit: rust_admission::admit,
        },
    ]
}

/// A line for each C compiler: its version, or that it was missing.
pub fn compilers() -> [String; 2] {
    [
        ("gcc", option_env!("PEER_VERSION_gcc")),
        ("clang", option_env!("PEER_VERSION_clang")),
    ]
    .map(|(name, version)| match version {
        Some(version) => format!("{name} -O3: {version}"),
        None => format!("{name}: missing when this was built, left out"),
    })
}

//! Links the proved library, and compiles the C peer core with each C compiler that is there. Each
//! of them is placed, so that its speed does not hang on where the linker puts it.

use std::path::{Path, PathBuf};
use std::process::Command;
use std::{env, fs};

const COMPILERS: [&str; 2] = ["gcc", "clang"];
const PEER_SOURCE: &str = "peers/core.c";
/// Bytes of a cache line, and what a compiler aligns to.
const LINE: u64 = 64;
const ALIGNED: u64 = 16;

fn main() {
    println!("cargo::rerun-if-changed=build.rs");
    link_library();
    compile_peers();
}

/// `libcapi.a` stands below the repository's root, or in the folder that UXN_FILTER_LIB names.
fn link_library() {
    println!("cargo::rerun-if-env-changed=UXN_FILTER_LIB");
    let folder = match env::var_os("UXN_FILTER_LIB") {
        Some(named) => PathBuf::from(named),
        None => Path::new(&env::var_os("CARGO_MANIFEST_DIR").unwrap()).join("../target/staticlib"),
    };
    let library = folder.join("libcapi.a");
    println!("cargo::rerun-if-changed={}", library.display());
    if !library.is_file() {
        println!(
            "cargo::error=the proved library {} is missing: `tools/build capi` in the repository's root makes it",
            library.display()
        );
        return;
    }
    archive("capi", &[placed(&library, "capi")]);
    println!("cargo::rustc-env=UXN_FILTER_LIBRARY={}", library.display());
}

/// One object for each compiler, with its name in the symbols; `cfg(peer_gcc)` and
/// `cfg(peer_clang)` say which are there.
fn compile_peers() {
    println!("cargo::rerun-if-changed={PEER_SOURCE}");
    let mut objects = Vec::new();
    for compiler in COMPILERS {
        println!("cargo::rustc-check-cfg=cfg(peer_{compiler})");
        let Some(version) = version_of(compiler) else {
            continue;
        };
        let object = out().join(format!("peer_{compiler}.o"));
        run(Command::new(compiler)
            .args([
                "-O3",
                "-std=c11",
                "-Wall",
                "-Wextra",
                "-fPIE",
                "-ffunction-sections",
                "-falign-functions=16",
                "-c",
            ])
            .arg(format!("-DPEER={compiler}"))
            .arg(PEER_SOURCE)
            .arg("-o")
            .arg(&object));
        println!("cargo::rustc-cfg=peer_{compiler}");
        println!("cargo::rustc-env=PEER_VERSION_{compiler}={version}");
        objects.push(placed(&object, compiler));
    }
    if objects.is_empty() {
        println!(
            "cargo::error=neither gcc nor clang is there: the speed comparison needs one of them"
        );
        return;
    }
    archive("peers", &objects);
}

/// The same code at one place: a function with an indirect jump, the dispatch of the steps, is put
/// where the jump ends a line of 64 bytes as nearly as can be. Of the four places that an alignment
/// to 16 bytes allows, this was the fastest in one workload, or as fast, for the library and for both
/// peers (`README.md`).
fn placed(code: &Path, name: &str) -> PathBuf {
    let sections: Vec<String> = dispatches(code)
        .into_iter()
        .enumerate()
        .map(|(number, (section, end))| {
            let last_in_line = |pad: &u64| (end + pad - 1) % LINE;
            let pads = (0..LINE).step_by(ALIGNED as usize);
            let pad = pads.max_by_key(last_in_line).unwrap();
            format!(".text.{name}.{number} : ALIGN({LINE}) {{ . = . + {pad}; *({section}) }}")
        })
        .collect();
    let script = out().join(format!("{name}.ld"));
    let object = out().join(format!("{name}_placed.o"));
    let text = format!("SECTIONS {{\n{}\n}}\n", sections.join("\n"));
    fs::write(&script, text).expect("the linker script is written");
    run(Command::new("ld")
        .args(["-r", "--whole-archive", "-T"])
        .args([&script, code])
        .arg("-o")
        .arg(&object));
    object
}

/// The sections with an indirect jump, and where the first one of each ends.
fn dispatches(code: &Path) -> Vec<(String, u64)> {
    let output = Command::new("objdump")
        .args(["-d", "--no-show-raw-insn"])
        .arg(code)
        .output()
        .expect("objdump runs");
    let text = String::from_utf8_lossy(&output.stdout).into_owned();
    let address = |line: &str| u64::from_str_radix(line.split(':').next()?.trim(), 16).ok();
    let mut found = Vec::new();
    for section in text.split("Disassembly of section ").skip(1) {
        let lines: Vec<&str> = section.lines().collect();
        let is_jump = |line: &&str| line.contains("jmp") && line.contains('*');
        let Some(jump) = lines.iter().position(is_jump) else {
            continue;
        };
        let after = lines.get(jump + 1).and_then(|line| address(line));
        let end = after.expect("an arm after the jump");
        found.push((lines[0].trim_end_matches(':').to_owned(), end));
    }
    found
}

fn archive(name: &str, objects: &[PathBuf]) {
    let file = out().join(format!("lib{name}.a"));
    // An archive keeps what it has, so it is made anew.
    let _ = fs::remove_file(&file);
    run(Command::new("ar").arg("crs").arg(&file).args(objects));
    println!("cargo::rustc-link-search=native={}", out().display());
    println!("cargo::rustc-link-lib=static={name}");
}

fn out() -> PathBuf {
    PathBuf::from(env::var_os("OUT_DIR").unwrap())
}

/// The first line that the compiler says about its version; none where it is missing.
fn version_of(compiler: &str) -> Option<String> {
    let output = Command::new(compiler).arg("--version").output().ok()?;
    let text = String::from_utf8_lossy(&output.stdout).into_owned();
    text.lines().next().map(str::to_owned)
}

fn run(command: &mut Command) {
    match command.status() {
        Ok(status) if status.success() => {}
        Ok(status) => println!("cargo::error={command:?} ended with {status}"),
        Err(error) => println!("cargo::error={command:?}: {error}"),
    }
}

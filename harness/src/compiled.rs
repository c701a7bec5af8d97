//! C programs that are built with the headers of `include` and the library, and what programs print.

use std::path::{Path, PathBuf};
use std::process::Command;

/// The archive that the tests are linked with.
pub fn library() -> &'static Path {
    Path::new(env!("UXN_FILTER_LIBRARY"))
}

/// A file or folder of the repository.
pub fn repository(path: &str) -> PathBuf {
    Path::new(env!("CARGO_MANIFEST_DIR")).join("..").join(path)
}

/// Builds a C program with the header and the library; a warning is an error.
pub fn build_c(source: &Path, program: &Path) {
    let mut command = compile("cc", "c11", &repository("include"), source, program);
    assert_eq!(printed(&mut command), "");
}

/// The command that builds a program in this standard of C or C++, with the header of a folder and
/// the library; a warning is an error.
pub fn compile(
    compiler: &str,
    standard: &str,
    include: &Path,
    source: &Path,
    program: &Path,
) -> Command {
    let language = if standard.starts_with("c++") {
        "c++"
    } else {
        "c"
    };
    let mut command = Command::new(compiler);
    command
        .arg(format!("-std={standard}"))
        .args(["-Wall", "-Wextra", "-Werror", "-pedantic", "-I"])
        .arg(include)
        .args(["-x", language])
        .arg(source)
        .args(["-x", "none"])
        .arg(library())
        .arg("-o")
        .arg(program);
    command
}

/// What a command writes on standard output; it ends well and has nothing to say on standard error.
pub fn printed(command: &mut Command) -> String {
    let output = match command.output() {
        Ok(output) => output,
        Err(error) => panic!("{command:?}: {error}"),
    };
    let said = String::from_utf8_lossy(&output.stderr);
    assert!(
        output.status.success() && said.is_empty(),
        "{command:?} ended with {}:\n{said}",
        output.status
    );
    String::from_utf8(output.stdout).expect("text")
}

//! The sizes of a static library's sections.

use std::process::Command;

/// Sections that are loaded, by how their names begin.
pub const LOADED: [&str; 5] = [".text", ".rodata", ".eh_frame", ".data", ".bss"];

/// The bytes of each, as `size` says them.
pub fn of(library: &str) -> [usize; 5] {
    let output = Command::new("size").args(["-A", library]).output();
    let output = output.expect("size is to be installed");
    assert!(output.status.success(), "size can't read {library}");
    let lines = String::from_utf8_lossy(&output.stdout).into_owned();
    LOADED.map(|name| {
        let of_name = lines.lines().filter(|line| line.starts_with(name));
        of_name.map(bytes).sum()
    })
}

/// The size in a line of name, size and address.
fn bytes(line: &str) -> usize {
    let size = line.split_whitespace().rev().nth(1);
    size.and_then(|word| word.parse().ok())
        .expect("a line has a size")
}

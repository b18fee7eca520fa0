//! Targets.

/// What was to be reached and what was, and whether it is enough.
pub struct Target {
    pub line: String,
    pub met: bool,
}

/// Prints the targets, and gives whether all were met.
pub fn print(targets: &[Target]) -> bool {
    println!("\nTargets");
    for target in targets {
        let verdict = if target.met { "ok" } else { "MISSED" };
        println!("{verdict:<8}{}", target.line);
    }
    targets.iter().all(|target| target.met)
}

//! Maude, on the same rules as equations: a file of a module and commands, and a process that reads it and prints.

use crate::terms::{FIRST_VARIABLE, System};
use std::path::Path;
use std::process::{Command, Stdio};

fn spelled(system: &System, codes: &[u16]) -> String {
    system.print(codes)
}

/// The module and a command for each term.
pub fn file(system: &System, terms: &[Vec<u16>]) -> String {
    let mut out =
        String::from("set show command off .\nset show timing off .\nset show stats off .\nfmod B is\n  sort T .\n");
    for (name, arity) in system.symbols.iter().zip(&system.arities) {
        out += &format!("  op {name} : {}-> T .\n", "T ".repeat(*arity as usize));
    }
    for name in &system.variables {
        out += &format!("  var {name} : T .\n");
    }
    for rule in &system.rules {
        out += &format!("  eq {} = {} .\n", spelled(system, &rule.left), spelled(system, &rule.right));
    }
    out += "endfm\n";
    for term in terms {
        assert!(term.iter().all(|code| *code < FIRST_VARIABLE));
        out += &format!("red {} .\n", spelled(system, term));
    }
    out + "quit\n"
}

/// Whether there is a Maude.
pub fn is_there() -> bool {
    let found = Command::new("maude").arg("--version").stdout(Stdio::null()).stderr(Stdio::null()).status();
    found.is_ok_and(|status| status.success())
}

/// Runs a file, and keeps what is printed in another.
pub fn run(input: &Path, output: &Path) {
    let out = std::fs::File::create(output).expect("a file for Maude's output");
    let mut command = Command::new("maude");
    command.args(["-no-banner", "-no-prelude", "-no-advise", "-no-wrap", "-no-ansi-color", "-batch"]).arg(input);
    let status = command.stdin(Stdio::null()).stdout(out).status().expect("maude runs");
    assert!(status.success());
}

/// The normal forms that were printed.
pub fn results(output: &Path) -> Vec<String> {
    let text = std::fs::read_to_string(output).expect("Maude's output");
    let lines = text.lines().filter_map(|line| line.strip_prefix("result T: "));
    lines.map(|line| line.replace(' ', "")).collect()
}

//! Instructions of this program, run once more under callgrind in a process of its own.

use std::env;
use std::process::{Command, Stdio};

/// Prints the rows of a table of instructions, or that there is none since valgrind is not installed.
pub fn table(head: &str, rows: impl IntoIterator<Item = Result<String, String>>) -> Result<(), String> {
    if !installed() {
        println!("Instructions are not counted: valgrind is not installed.");
        return Ok(());
    }
    println!("{}", head);
    rows.into_iter().try_for_each(|row| row.map(|row| println!("{}", row)))
}

fn installed() -> bool {
    let asked = Command::new("valgrind").arg("--version").stdout(Stdio::null()).stderr(Stdio::null()).status();
    asked.is_ok_and(|status| status.success())
}

/// All instructions of this program when it is given these arguments, and what it printed then.
pub fn counted(arguments: &[&str]) -> Result<(f64, String), String> {
    let program = env::current_exe().map_err(|e| e.to_string())?;
    let run = Command::new("valgrind")
        .args(["--tool=callgrind", "--callgrind-out-file=/dev/null"])
        .arg(program)
        .args(arguments)
        .output()
        .map_err(|e| e.to_string())?;
    let (printed, told) = (String::from_utf8_lossy(&run.stdout), String::from_utf8_lossy(&run.stderr));
    let total = told.lines().find_map(|line| line.split("Collected : ").nth(1)).and_then(|n| n.trim().parse().ok());
    match total {
        Some(total) if run.status.success() => Ok((total, printed.trim().to_string())),
        _ => Err(format!("callgrind failed on {}:\n{}", arguments.join(" "), told)),
    }
}

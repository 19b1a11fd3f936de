//! Deep lists need more stack than a thread has by itself; whoever parses them
//! runs with this much.

use std::process::ExitCode;

/// Bytes of stack for a thread that parses.
pub const STACK: usize = 64 << 20;

/// A program's `main` on such a stack: its failure is a message, and exit code 1.
pub fn exit_code(command: fn() -> Result<(), String>) -> ExitCode {
    let thread = std::thread::Builder::new().stack_size(STACK).spawn(command);
    match thread.map(|running| running.join()) {
        Ok(Ok(Ok(()))) => ExitCode::SUCCESS,
        Ok(Ok(Err(why))) => {
            eprintln!("{why}");
            ExitCode::FAILURE
        }
        _ => ExitCode::FAILURE,
    }
}

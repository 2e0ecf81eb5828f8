//! A deadline of the whole program.

use std::io::Write;
use std::time::Duration;

/// Ends the program by status 1 after the limit, with a line on standard error: of bytes that keep coming no read takes long, and one of
/// standard input has no timeout.
pub fn set(limit: Duration, line: &'static str) -> std::io::Result<()> {
    let end = move || {
        std::thread::sleep(limit);
        let _ = writeln!(std::io::stderr(), "{line}");
        std::process::exit(1)
    };
    std::thread::Builder::new().spawn(end).map(drop)
}

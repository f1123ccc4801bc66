//! The command-line tool: makes keys, seals files, checks seals, and reads parts and digits.
//!
//! Its exit status is the answer's number, 0 to 6, or one of `stop`'s. Every decision about sets and lengths is the
//! library's; the tool reads files, explains refusals, and writes outputs whole or not at all.

#![forbid(unsafe_code)]

mod arguments;

mod commands;

mod help;

mod input;

mod output;

mod refusal;

mod stop;

mod tour;

use std::io::{self, Write};
use std::process::ExitCode;

fn main() -> ExitCode {
    let arguments: Vec<_> = std::env::args_os().skip(1).collect();
    let status = match commands::run(&arguments, &mut io::stdout()) {
        Ok(answer) => answer.number() as u8,
        Err(stop) => {
            // Whoever closed standard error still gets the status.
            let _ = writeln!(io::stderr(), "{}", stop.line);
            stop.status
        }
    };
    ExitCode::from(status)
}

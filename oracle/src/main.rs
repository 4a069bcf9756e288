//! The oracle's program; see `oracle --help`.

mod commands;

use std::process::ExitCode;

fn main() -> ExitCode {
    match commands::run(std::env::args().skip(1).collect()) {
        Ok(true) => ExitCode::SUCCESS,
        Ok(false) => ExitCode::from(1),
        Err(why) => {
            eprintln!("oracle: {why}");
            ExitCode::from(2)
        }
    }
}

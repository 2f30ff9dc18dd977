//! marker: checks, lists and edits 8086 assembly marker files. Reading and editing are the proved library's; this program brings the files
//! to it and says to a person what came of it.
mod args;
mod attributes;
mod check;
mod descriptors;
mod edit;
mod files;
mod list;
mod outcome;
mod report;

use args::{Arguments, Command};
use outcome::Status;
use std::process::ExitCode;

fn main() -> ExitCode {
    files::outlive_limits();
    let done = match Arguments::new(std::env::args_os().skip(1)).command() {
        Ok(Command::Say(text)) => outcome::print(text).map(|()| Status::Done),
        Ok(Command::Check { files }) => check::check(&files),
        Ok(Command::List { file }) => list::list(&file),
        Ok(Command::Edit { file, line, text, force }) => edit::edit(&file, line, &text, force),
        Err(stop) => Err(stop),
    };
    let status = done.unwrap_or_else(|stop| {
        outcome::complain(&stop);
        stop.status
    });
    ExitCode::from(status as u8)
}

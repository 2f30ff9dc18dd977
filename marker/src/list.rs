//! marker list FILE
use crate::outcome::{Status, Stop, named, print};
use crate::{files, report};
use laqhoncu::{Refusal, Register, records};
use std::ffi::OsStr;

pub fn list(name: &OsStr) -> Result<Status, Stop> {
    let source = files::source(name)?;
    match laqhoncu::listing(&source) {
        Ok(listing) => {
            let (mut text, mut count) = (String::new(), 0);
            for record in records(&listing) {
                let record = record.map_err(|bad| Stop::failed(format!("the library's listing is broken: {bad}")))?;
                text += &format!("{record}\n");
                count += 1;
            }
            print(text + &format!("END {count}\n"))?;
            Ok(Status::Done)
        }
        Err(refused) => {
            print(refusal_line(&refused))?;
            Err(Stop::refused(report::refusal(&named(name), &source, 1, &refused).trim_end()))
        }
    }
}

/// As the program `listing` prints it; a register that is not there is 255.
fn refusal_line(refused: &Refusal) -> String {
    let register = |register: Option<Register>| register.map_or(255, Register::number);
    let Refusal { number, span, first, second } = *refused;
    format!("REF {number} {} {} {} {}\n", span.from, span.to, register(first), register(second))
}

//! marker check FILE..
use crate::outcome::{Status, Stop, complain, named, print};
use crate::{files, report};
use std::ffi::OsString;

pub fn check(names: &[OsString]) -> Result<Status, Stop> {
    let (mut status, mut checked, mut refused) = (Status::Done, 0, 0);
    for name in names {
        let source = match files::source(name) {
            Ok(source) => source,
            Err(stop) => {
                complain(&stop);
                status = status.max(stop.status);
                continue;
            }
        };
        checked += 1;
        if let Err(refusal) = laqhoncu::listing(&source) {
            print(report::refusal(&named(name), &source, 1, &refusal))?;
            refused += 1;
            status = status.max(Status::Refused);
        }
    }
    print(counted(checked, refused, names.len() - checked))?;
    Ok(status)
}

fn counted(checked: usize, refused: usize, unread: usize) -> String {
    let files = if checked == 1 { "1 file".to_string() } else { format!("{checked} files") };
    let refused = if refused == 0 { "none".to_string() } else { refused.to_string() };
    match unread {
        0 => format!("{files} checked, {refused} refused\n"),
        _ => format!("{files} checked, {refused} refused, {unread} not read\n"),
    }
}

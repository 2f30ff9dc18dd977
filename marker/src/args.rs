//! What the program is told.
use crate::outcome::Stop;
use std::ffi::{OsStr, OsString};
use std::os::unix::ffi::{OsStrExt, OsStringExt};

const HELP: &str = "\
marker: checks, lists and edits 8086 assembly marker files

  marker check FILE..            say what is wrong in each file
  marker list FILE               print the listing of a file
  marker edit FILE LINE TEXT     exchange one line of a file for a text
  marker COMMAND --help          tell more about a command
  marker --version               print the version

FILE may be `-` for standard input (a file of that name is ./-).
Exit status: 0 done, 1 refused, 2 wrong usage or the system said no.
";

const CHECK_HELP: &str = "\
marker check FILE..

Reads each file to its end. What is refused is said as FILE:LINE:COLUMN and why,
with the line and a mark under the place; a file is refused for its first fault.
The last line counts the files. Lines and columns count from 1, columns in bytes.

  FILE    a marker file, or `-` for standard input

Exit status: 0 all files are read, 1 one is refused, 2 one could not be opened or read,
wrong usage, or the system said no.
";

const LIST_HELP: &str = "\
marker list FILE

Prints the listing of a file: a line for each record, its mark and then its fields
as decimal numbers, and `END` with the number of records; for a refused file the one
line `REF number from to register register`, and the refusal in words on standard error.

  FILE    a marker file, or `-` for standard input

Exit status: 0 listed, 1 refused, 2 wrong usage or the system said no.
";

const EDIT_HELP: &str = "\
marker edit [--force] FILE LINE TEXT

Exchanges one line of a marker file for a text. The file is replaced at once by its
edited form, or left as it was: where the edit is refused, the words say why. A file
that is refused itself is edited like any other if the line that goes is its only fault.

  FILE       a marker file; `-` reads standard input and writes the edited form to
             standard output
  LINE       the number of the line, from 1 on; behind a final line feed stands one
             more line, which is empty
  TEXT       the new line, without a line feed; one argument, so mostly in quotes
  --force    edit a file though its owner, its group, or an extended attribute such as
             its access control list cannot be kept; what is not kept is said

A symbolic link stays, and the file that it names is edited. Mode, owner and extended
attributes are kept. Where the old line ends in CR, so does the new one. Not edited are
a file with further hard links, one that is no regular file, and one that you may not
write. Two edits of a file at once are done one after the other.

Exit status: 0 edited, 1 refused, 2 wrong usage or the system said no.
";

const VERSION: &str = concat!("marker ", env!("CARGO_PKG_VERSION"), "\n");

#[derive(Debug, PartialEq)]
pub enum Command {
    Say(&'static str),
    Check { files: Vec<OsString> },
    List { file: OsString },
    Edit { file: OsString, line: usize, text: Vec<u8>, force: bool },
}

pub struct Arguments(std::collections::VecDeque<OsString>);

impl Arguments {
    pub fn new(words: impl Iterator<Item = OsString>) -> Self {
        Self(words.collect())
    }

    pub fn command(mut self) -> Result<Command, Stop> {
        let Some(word) = self.0.pop_front() else {
            return Err(Stop::usage("a command is missing: check, list or edit", ""));
        };
        match word.as_bytes() {
            b"check" => self.check(),
            b"list" => self.list(),
            b"edit" => self.edit(),
            b"--version" | b"-V" => self.no_more("").map(|()| Command::Say(VERSION)),
            b"--help" | b"-h" => self.no_more("").map(|()| Command::Say(HELP)),
            // `marker help edit` is `marker edit --help`.
            b"help" => match self.0.pop_front() {
                None => Ok(Command::Say(HELP)),
                Some(command) => Self([command, "--help".into()].into()).command(),
            },
            _ => Err(Stop::usage(format!("no command {}", quoted(&word)), "")),
        }
    }

    fn check(mut self) -> Result<Command, Stop> {
        if self.options("check", &mut [])? {
            return Ok(Command::Say(CHECK_HELP));
        }
        if self.0.is_empty() {
            return Err(Stop::usage("FILE is missing", "check"));
        }
        Ok(Command::Check { files: self.0.into() })
    }

    fn list(mut self) -> Result<Command, Stop> {
        if self.options("list", &mut [])? {
            return Ok(Command::Say(LIST_HELP));
        }
        let file = self.next("FILE", "list")?;
        self.no_more("list")?;
        Ok(Command::List { file })
    }

    fn edit(mut self) -> Result<Command, Stop> {
        let mut force = false;
        if self.options("edit", &mut [("--force", &mut force)])? {
            return Ok(Command::Say(EDIT_HELP));
        }
        let file = self.next("FILE", "edit")?;
        let line = line_number(&self.next("LINE", "edit")?)?;
        let text = self.next("TEXT", "edit")?.into_vec();
        self.no_more("edit")?;
        Ok(Command::Edit { file, line, text, force })
    }

    /// Takes the options in front of the other words; true where help is asked for. Behind the first other word nothing is an option, so a
    /// text may begin with a dash.
    fn options(&mut self, command: &str, known: &mut [(&str, &mut bool)]) -> Result<bool, Stop> {
        while let Some(word) = self.0.front() {
            match word.as_bytes() {
                b"--help" | b"-h" => return Ok(true),
                b"--" => {
                    self.0.pop_front();
                    return Ok(false);
                }
                b"-" => return Ok(false),
                bytes if bytes.starts_with(b"-") => match known.iter_mut().find(|(name, _)| word == name) {
                    Some((_, given)) => **given = true,
                    None => return Err(Stop::usage(format!("no option {}", quoted(word)), command)),
                },
                _ => return Ok(false),
            }
            self.0.pop_front();
        }
        Ok(false)
    }

    fn next(&mut self, name: &str, command: &str) -> Result<OsString, Stop> {
        self.0.pop_front().ok_or_else(|| Stop::usage(format!("{name} is missing"), command))
    }

    fn no_more(&self, command: &str) -> Result<(), Stop> {
        match self.0.front() {
            None => Ok(()),
            Some(word) => Err(Stop::usage(format!("one word too many: {}", quoted(word)), command)),
        }
    }
}

fn quoted(word: &OsStr) -> String {
    format!("`{}`", word.to_string_lossy().escape_debug())
}

/// A number of digits alone, from 1 on. One too large for any file stays too large.
fn line_number(word: &OsStr) -> Result<usize, Stop> {
    let digits = word.to_str().filter(|text| !text.is_empty() && text.bytes().all(|byte| byte.is_ascii_digit()));
    match digits.map(|digits| digits.parse().unwrap_or(usize::MAX)) {
        None | Some(0) => Err(Stop::usage(format!("LINE is a number from 1 on, not {}", quoted(word)), "edit")),
        Some(line) => Ok(line),
    }
}

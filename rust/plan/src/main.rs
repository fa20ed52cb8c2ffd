//! The program `plan`: shows, draws, explains, compares, converts and edits images of call plans, and makes calls on a dispatcher. Words about a table
//! or a dispatcher go to standard output; a command that gives a new image says what it did on standard error. Status 0: done. 1: the answer is no
//! (`check`, `diff`, `rung`), or a call was refused (`line`). 2: bad input, something in the way, or something that could not be read or written; then
//! one line on standard error says what, but of a pipe that nobody reads any more, and nothing is stored.

mod commands;
mod files;

use commands::{Command, COMMANDS};
use files::Place;
use std::env::args_os;
use std::ffi::{OsStr, OsString};
use std::path::PathBuf;
use std::process::ExitCode;

/// What goes wrong, in a line; no words where there is nobody to tell.
pub type Failure = String;

/// The words of a command line after its command, taken apart.
#[derive(Default)]
pub struct Request {
    pub words: Vec<OsString>,
    /// Where the result is stored; standard output where nothing is said.
    pub output: Option<PathBuf>,
    /// Where the slip of a clearing is stored.
    pub slip: Option<PathBuf>,
    /// What stood at these places when the command began.
    pub places: Vec<Place>,
    /// The edition of the image that is given; that of the image read where nothing is said.
    pub edition: Option<u16>,
    /// Whether a plan or a slip that was not read may be replaced.
    pub force: bool,
    pub limit: Option<u16>,
    pub dot: bool,
    pub skip_refused: bool,
}

fn main() -> ExitCode {
    let words: Vec<OsString> = args_os().skip(1).collect();
    match run(&words) {
        Ok(status) => status.into(),
        Err(failure) => {
            // where nobody hears it, the status says it
            if !failure.is_empty() {
                let _ = files::say(&format!("plan: {failure}\n"));
            }
            2.into()
        }
    }
}

fn run(words: &[OsString]) -> Result<u8, Failure> {
    telephone::check_edition().map_err(|wrong| wrong.to_string())?;
    let Some((name, rest)) = words.split_first() else {
        return Err("no command is given; plan --help names them".to_string());
    };
    if let Some(text) = page(name, rest)? {
        files::print(&text)?;
        return Ok(0);
    }
    let command = command(name)?;
    let mut request = request(command, rest)?;
    if !command.takes(request.words.len()) {
        return Err(format!("usage: plan {}", command.usage()));
    }
    request.places = files::look(&request, &command.files(&request.words))?;
    (command.run)(&request)
}

/// The command of that name.
fn command(name: &OsStr) -> Result<&'static Command, Failure> {
    let found = COMMANDS.iter().find(|command| name == command.name);
    found.ok_or_else(|| format!("no command {}; plan --help names them", files::shown(name)))
}

/// The page that a command line asks for: the version, what commands there are, or one of them at length. The script `plan` goes by the same rule, and
/// prints the pages of help as they are stored, so that it needs no tool for them.
fn page(name: &OsStr, rest: &[OsString]) -> Result<Option<String>, Failure> {
    if name == "--version" {
        return Ok(Some(format!("plan {}\n", env!("CARGO_PKG_VERSION"))));
    }
    let asked = match rest.first() {
        Some(about) if name == "help" => about,
        _ if name == "help" || is_help(name) => OsStr::new("--help"),
        _ if rest.iter().take_while(|word| *word != "--").any(|word| is_help(word)) => name,
        _ => return Ok(None),
    };
    if asked == "help" || is_help(asked) {
        return Ok(Some(overview()));
    }
    Ok(Some(command(asked)?.page()))
}

fn is_help(word: &OsStr) -> bool {
    word == "--help" || word == "-h"
}

const MORE: &str = "\
plan COMMAND --help says more, and plan --version which version this is. IMAGE
is a file that holds an image.

Status 0: done. 1: the answer is no (check, diff, rung), or a call was refused
(line). 2: bad input, or something is missing, is not proved, stands in the way,
or could not be read or written; then nothing is stored, and standard error says
what, but of a pipe that nobody reads any more.
";

fn overview() -> String {
    // a command line that is longer has its gist below it
    const WIDTH: usize = 36;
    let line = |command: &Command| match (command.usage(), command.gist) {
        (usage, gist) if usage.len() <= WIDTH => format!("  {usage:<WIDTH$} {gist}\n"),
        (usage, gist) => format!("  {usage}\n  {:<WIDTH$} {gist}\n", ""),
    };
    let lines: String = COMMANDS.iter().map(line).collect();
    format!("usage:\n{lines}\n{MORE}")
}

/// Takes options and words apart. An option that the command does not have is an error.
fn request(command: &Command, words: &[OsString]) -> Result<Request, Failure> {
    let mut request = Request::default();
    let mut seen = Vec::new();
    let mut words = words.iter();
    while let Some(word) = words.next() {
        let text = word.to_str().unwrap_or_default();
        if text == "--" {
            request.words.extend(words.by_ref().cloned());
        } else if !text.starts_with('-') || text == "-" {
            request.words.push(word.clone());
        } else if !command.options.iter().any(|option| option.split(' ').next() == Some(text)) {
            let option = files::shown(word);
            return Err(format!("no option {option}; usage: plan {}", command.usage()));
        } else if seen.contains(&text) {
            return Err(format!("{text} is given twice; usage: plan {}", command.usage()));
        } else {
            seen.push(text);
            match text {
                "--dot" => request.dot = true,
                "--force" => request.force = true,
                "--edition" => request.edition = Some(edition(next(text, words.next())?)?),
                "--skip-refused" => request.skip_refused = true,
                "--slip" => request.slip = Some(next(text, words.next())?.into()),
                "--limit" => request.limit = Some(number("the limit", next(text, words.next())?)?),
                _ => request.output = Some(next(text, words.next())?.into()),
            }
        }
    }
    Ok(request)
}

/// The value of an option, or of a call on a dispatcher: the word after it.
pub fn next<'a>(option: &str, word: Option<&'a OsString>) -> Result<&'a OsString, Failure> {
    word.ok_or_else(|| format!("{option} is the last word, and has to be followed by its value"))
}

/// An edition of the image that can be written.
pub fn edition(word: &OsStr) -> Result<u16, Failure> {
    match number("the edition", word)? {
        edition @ 1..=2 => Ok(edition),
        other => Err(format!("the edition to be written is 1 or 2, and not {other}")),
    }
}

/// A number of 16 bits in decimal digits.
pub fn number(what: &str, word: &OsStr) -> Result<u16, Failure> {
    let text = word.to_str().filter(|text| text.bytes().all(|byte| byte.is_ascii_digit()));
    let number = text.and_then(|text| text.parse().ok());
    number.ok_or_else(|| {
        format!("{what} is given in decimal digits, below 65536, and not as {}", files::shown(word))
    })
}

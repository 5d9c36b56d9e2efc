//! Parsing of the arguments.

use super::escape::Escaped;
use super::select::Kind;
use std::collections::VecDeque;
use std::ffi::{OsStr, OsString};

/// The usage of the program.
pub const USAGE: &str = "usage: wenc-dump [OPTION]... FILE...\n";

/// The text that `--help` prints after the usage.
pub const HELP: &str = "\
Prints the sections and items of WebAssembly components, and the sections of core
modules with their imports and exports. The file - is standard input.

  -x, --hex           also print the bytes of items, in hexadecimal
      --check         also mark indices that are out of range
      --section=KIND  print only sections of this kind: a word as in the output, or an id
      --summary       print sections without their items
      --at=OFFSET     say what the byte at this offset is
      --wit           print the world of components, as WIT
      --html          print a page that shows the bytes, for a browser, of one file or two
      --json          print JSON, a line for each file
      --compact       leave out of JSON what is null
      --color=WHEN    colour the output: always, never or auto, on a terminal
      --width=N       fold items that don't fit in N columns
  -o, --output=FILE   print to a file
  -h, --help          print this help
  -V, --version       print the version

Exit status: 0 all was read and printed, 1 something wasn't, 2 bad arguments,
3 memory ran out.

JSON: {\"version\",\"file\",\"component\" or \"module\",\"fault\"}. Both of these have their
\"sections\", a section has its \"items\", and an item is a value of wenc::tree, as serde
would write it. The manual page, wenc-dump(1), has all fields.
";

/// The request of the arguments.
pub enum Request {
    Help,
    Version,
    Dump(Options),
}

/// The options and the files.
#[derive(Default)]
pub struct Options {
    /// The files, at least one; `-` is standard input.
    pub files: Vec<OsString>,
    pub hex: bool,
    pub check: bool,
    pub wit: bool,
    pub json: bool,
    pub html: bool,
    pub summary: bool,
    pub compact: bool,
    /// The byte offset of the byte that is wanted.
    pub at: Option<usize>,
    /// The file that is printed to.
    pub output: Option<OsString>,
    /// The kinds of sections to print; all sections are printed if there are none.
    pub sections: Vec<Kind>,
    /// Whether to colour the output; `None` if only on a terminal.
    pub colours: Option<bool>,
    /// The maximum number of columns of a line.
    pub columns: Option<usize>,
}

impl Options {
    /// Sets an option with a value.
    ///
    /// # Errors
    ///
    /// Returns a message if there is no such option, or if it can't have this value.
    fn set(&mut self, option: &str, value: OsString) -> Result<(), String> {
        if option == "--output" {
            self.output = Some(value);
            return Ok(());
        }
        let value = &*value.to_string_lossy();
        let bad = || format!("no value of {option}: {}", Escaped(value.as_ref()));
        let no_kind = || format!("{}\nit takes {}", bad(), Kind::expected());
        match option {
            "--section" => self.sections.push(Kind::parse(value).ok_or_else(no_kind)?),
            "--color" => {
                self.colours = match value {
                    "always" => Some(true),
                    "never" => Some(false),
                    "auto" => None,
                    _ => return Err(bad()),
                }
            }
            "--at" => self.at = Some(offset(value).ok_or_else(bad)?),
            "--width" => self.columns = Some(value.parse().map_err(|_| bad())?),
            _ => return Err(format!("no option {}", Escaped(option.as_ref()))),
        }
        Ok(())
    }
}

/// Parses a byte offset, in decimal or after `0x` in hexadecimal.
fn offset(text: &str) -> Option<usize> {
    match text.strip_prefix("0x") {
        Some(digits) => usize::from_str_radix(digits, 16).ok(),
        None => text.parse().ok(),
    }
}

/// Splits an argument into an option that takes a value, and the value if it follows `=`. Returns
/// `None` for other arguments.
fn valued(argument: &str) -> Option<(&str, Option<&str>)> {
    let with_value = argument.split_once('=').map(|(option, value)| (option, Some(value)));
    let (option, value) = with_value.unwrap_or((argument, None));
    let takes = ["--section", "--color", "--width", "--at", "--output"];
    takes.contains(&option).then_some((option, value))
}

/// Returns the long forms of the options of an argument such as `-xV`, of which the last may have a
/// value behind it; `None` if they aren't all options.
fn short(argument: &str) -> Option<Vec<String>> {
    let letters = argument.strip_prefix('-').filter(|letters| !letters.starts_with('-'))?;
    let mut options = Vec::new();
    for (at, letter) in letters.char_indices() {
        options.push(match letter {
            'x' => "--hex".to_owned(),
            'h' => "--help".to_owned(),
            'V' => "--version".to_owned(),
            'o' => {
                let value = &letters[at + 1..];
                options.push(["--output", if value.is_empty() { "" } else { "=" }, value].concat());
                break;
            }
            _ => return None,
        });
    }
    Some(options).filter(|options| !options.is_empty())
}

/// Parses the arguments after the program's name.
///
/// # Errors
///
/// Returns a message about the first unknown option or bad value, or about missing files.
pub fn request(arguments: impl Iterator<Item = OsString>) -> Result<Request, String> {
    let mut options = Options::default();
    let mut are_files = false;
    let mut arguments = arguments.map(|argument| (argument, true)).collect::<VecDeque<_>>();
    while let Some((argument, is_whole)) = arguments.pop_front() {
        let text = argument.to_str().filter(|_| !are_files);
        if let Some(options) = text.filter(|_| is_whole).and_then(short) {
            options.into_iter().rev().for_each(|one| arguments.push_front((one.into(), false)));
            continue;
        }
        if let Some((option, value)) = text.and_then(valued) {
            let next = || arguments.pop_front().map(|(value, _)| value);
            let value = value.map(OsString::from).or_else(next);
            options.set(option, value.ok_or_else(|| format!("no value of {option}"))?)?;
            continue;
        }
        match text {
            Some("--help") => return Ok(Request::Help),
            Some("--version") => return Ok(Request::Version),
            Some("--hex") => options.hex = true,
            Some("--check") => options.check = true,
            Some("--summary") => options.summary = true,
            Some("--wit") => options.wit = true,
            Some("--html") => options.html = true,
            Some("--json") => options.json = true,
            Some("--compact") => options.compact = true,
            Some("--") => are_files = true,
            _ if !are_files && is_option(&argument) => {
                return Err(format!("no option {}", Escaped(&argument)));
            }
            _ => options.files.push(argument),
        }
    }
    match options.files.len() {
        0 => Err("no file".into()),
        3.. if options.html => Err("a page has one file or two".into()),
        _ => Ok(Request::Dump(options)),
    }
}

/// Returns whether the argument begins with a hyphen, and isn't a hyphen alone.
fn is_option(argument: &OsStr) -> bool {
    argument != "-" && argument.as_encoded_bytes().starts_with(b"-")
}

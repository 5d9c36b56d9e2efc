//! The completions of a program for bash, zsh and fish.

use std::collections::BTreeSet;
use std::io::ErrorKind;
use std::path::{Path, PathBuf};
use std::process::Command;

/// The shells, and the paths of a program's files for them.
fn paths(program: &str) -> [(&'static str, PathBuf); 3] {
    let top = Path::new(env!("CARGO_MANIFEST_DIR")).join("../../programs");
    let folder = top.join(program).join("completions");
    [
        ("bash", format!("{program}.bash")),
        ("zsh", format!("_{program}")),
        ("fish", format!("{program}.fish")),
    ]
    .map(|(shell, name)| (shell, folder.join(name)))
}

/// The shells, and a program's files for them, without comments.
pub fn files(program: &str) -> [(&'static str, String); 3] {
    paths(program).map(|(shell, path)| {
        let text = std::fs::read_to_string(path).expect("the file is there");
        let lines = text.lines().filter(|line| !line.trim_start().starts_with('#'));
        (shell, lines.flat_map(|line| [line, "\n"]).collect())
    })
}

/// The options in each file, those with a value with a `=`.
pub fn options(program: &str) -> [(&'static str, BTreeSet<String>); 3] {
    files(program).map(|(shell, file)| match shell {
        "fish" => {
            let lines = file.lines().filter(|line| line.starts_with("complete "));
            (shell, lines.flat_map(of_fish).collect())
        }
        // others have them as they are typed: in bash among words, in zsh quoted before a `[`
        _ => (shell, file.lines().filter(|line| is_listing(shell, line)).flat_map(typed).collect()),
    })
}

fn is_listing(shell: &str, line: &str) -> bool {
    let line = line.trim_start();
    if shell == "bash" { line.starts_with("words=\"-") } else { line.starts_with(['\'', '"']) }
}

/// The options of a line as they are typed, before their description.
fn typed(line: &str) -> Vec<String> {
    let line = line.split('[').next().expect("it isn't empty");
    let words = line.split(|c: char| !c.is_alphanumeric() && !"-=".contains(c));
    words.filter(|word| word.len() > 1 && word.starts_with('-')).map(String::from).collect()
}

/// The options that a line of fish declares: `-s` is before a letter, `-l` before a word, and `-x`
/// or `-r` marks one with a value.
fn of_fish(line: &str) -> Vec<String> {
    let words: Vec<&str> = line.split(' ').collect();
    let has_value = words.iter().any(|word| ["-x", "-r"].contains(word));
    let value = if has_value { "=" } else { "" };
    let declared = words.windows(2).filter_map(|pair| match pair {
        ["-s", letter] => Some(format!("-{letter}")),
        ["-l", word] => Some(format!("--{word}{value}")),
        _ => None,
    });
    declared.collect()
}

/// Checks that each installed shell reads its file without an error.
pub fn are_read_by_shells(program: &str) {
    for (shell, path) in paths(program) {
        match Command::new(shell).arg("-n").arg(&path).output() {
            Ok(output) => {
                let err = String::from_utf8_lossy(&output.stderr);
                assert!(output.status.success() && err.is_empty(), "{shell}: {err}");
            }
            Err(fault) => assert_eq!(fault.kind(), ErrorKind::NotFound, "{shell}"),
        }
    }
}

/// Checks the completions of the last of these words after a program's name, if bash is installed.
#[cfg(unix)]
pub fn bash_gives(program: &str, words: &[&str], found: &[&str]) {
    let [(_, path), ..] = paths(program);
    let script = "source \"$0\"; COMP_WORDS=(\"$@\"); COMP_CWORD=$(($# - 1)); \
        compopt() { :; }; _${1//-/_} \"$1\" \"${!#}\" \"\"; printf '%s\\n' \"${COMPREPLY[@]}\"";
    let mut bash = Command::new("bash");
    match bash.args(["-c", script]).arg(path).arg(program).args(words).output() {
        Ok(output) => {
            let (out, err) = (output.stdout, String::from_utf8_lossy(&output.stderr).into_owned());
            let out = String::from_utf8(out).expect("it is text");
            let given: Vec<&str> = out.lines().filter(|word| !word.is_empty()).collect();
            assert_eq!((&given[..], &err[..]), (found, ""), "{words:?}");
        }
        Err(fault) => assert_eq!(fault.kind(), ErrorKind::NotFound),
    }
}

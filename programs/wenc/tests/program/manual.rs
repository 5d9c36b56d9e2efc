//! The examples of a man page: each command prints the lines that the page has after it.

use std::path::{Path, PathBuf};
use std::process::Command;

/// The commands on a page, each with the lines after it.
fn examples(page: &str) -> Vec<(String, String)> {
    let page = page.replace("\\-", "-").replace("\\e", "\\");
    let mut examples: Vec<(String, String)> = Vec::new();
    for block in page.split("\n.EX\n").skip(1) {
        let (block, _) = block.split_once(".EE\n").expect("the example ends");
        for line in block.lines() {
            match line.strip_prefix("$ ") {
                Some(command) => examples.push((command.into(), String::new())),
                None => {
                    let (_, printed) = examples.last_mut().expect("a command is in front");
                    *printed += line;
                    *printed += "\n";
                }
            }
        }
    }
    examples
}

/// A folder of this test's own, for the files that the examples write.
fn folder(name: &str) -> PathBuf {
    let folder = Path::new(env!("CARGO_TARGET_TMPDIR")).join(name);
    std::fs::create_dir_all(&folder).expect("it is made");
    folder
}

/// Runs the examples of a program's page, of which there are `number`, with the program in `PATH`.
pub fn run(name: &str, program: &str, number: usize) {
    let folder = folder(name);
    let link = folder.join(name);
    let _ = std::fs::remove_file(&link);
    std::os::unix::fs::symlink(program, link).expect("the program is linked");
    let page = Path::new(env!("CARGO_MANIFEST_DIR")).join(format!("../../docs/man/{name}.1"));
    let page = std::fs::read_to_string(page).expect("the page is there");
    let path = format!("{}:/usr/bin:/bin", folder.display());
    let examples = examples(&page);
    assert_eq!(examples.len(), number, "{name}");
    for (command, printed) in examples {
        let mut shell = Command::new("sh");
        let shell = shell.args(["-c", &command]).env("PATH", &path).current_dir(&folder);
        let output = shell.output().expect("the shell is there");
        assert_eq!(String::from_utf8_lossy(&output.stdout), printed, "{command}");
        assert!(output.status.success() && output.stderr.is_empty(), "{command}");
    }
}

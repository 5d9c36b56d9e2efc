//! Runs of the program `wenc`, which `tests/proved/program` makes. Here the components that are in
//! them are listed.

use std::vec::Vec;

/// Bytes in hexadecimal. `cn` is the text "component-name", `00x128` is 128 times `00`.
pub fn hex(text: &str) -> Vec<u8> {
    let byte = |digits: &str| u8::from_str_radix(digits, 16).expect("a byte");
    let part = |word: &str| {
        let (digits, times) = word.split_once('x').unwrap_or((word, "1"));
        let bytes: Vec<u8> = match digits {
            "cn" => b"component-name".to_vec(),
            _ => (0..digits.len() / 2).map(|at| byte(&digits[2 * at..2 * at + 2])).collect(),
        };
        bytes.repeat(times.parse().expect("a number"))
    };
    text.split_whitespace().flat_map(part).collect()
}

/// Scripts: the status, what is printed for each line, and the bytes after the header.
pub const SCRIPTS: [(&str, u8, &str, &str); 12] = [
    ("", 0, "", ""),
    ("start 7 4294967295\nimport v value 0", 2, "0\nrefused 2\n", "09 07 07 00 ff ff ff ff 0f"),
    (
        "import a value 64\nimport b type 3\nalias-export 5 module m\nexport c module 0\n",
        0,
        "0\n0\n0\n1\n",
        "0a 0d 02 00 01 61 02 c0 00 00 01 62 03 00 03 06 07 01 00 11 00 05 01 6d \
         0b 08 01 00 01 63 00 11 00 00",
    ),
    ("alias-export 0 func f", 0, "0\n", "06 06 01 01 00 00 01 66"),
    ("start 7 1 0 1", 0, "0\n", "09 05 07 02 00 01 01"),
    ("core-module -", 0, "0\n", "01 00"),
    ("core-module 0aFf", 0, "0\n", "01 02 0a ff"),
    ("subtask.cancel 1", 0, "0\n", "08 03 01 06 01"),
    ("stream.cancel-write 3 0", 0, "0\n", "08 04 01 12 03 00"),
    ("waitable-set.wait 5", 0, "0\n", "08 04 01 20 00 05"),
    ("append-names", 0, "-\n", ""),
    ("thread.spawn-indirect 1 2", 0, "0\n", "08 04 01 41 01 02"),
];

/// Bytes after the header, and what `list` prints of them.
#[rustfmt::skip]
pub const LISTED: [(&str, &str); 8] = [
    ("", "0 0 0 0 0 0 0 0 0 0 0 0 0\n"),
    (
        "0a 06 01 00 01 66 01 00 0b 07 01 00 01 67 01 00 00",
        "10 1\n11 1\n0 0 0 0 0 0 0 0 2 0 0 0 0\n",
    ),
    (
        "0a 8a 80 80 80 00 81 80 80 80 00 01 01 66 01 00",
        "10 1\n0 0 0 0 0 0 0 0 1 0 0 0 0\n",
    ),
    ("06 01 00", "6 0\n0 0 0 0 0 0 0 0 0 0 0 0 0\n"),
    ("00 02 01 78", "0 1\n0 0 0 0 0 0 0 0 0 0 0 0 0\n"),
    (
        "09 07 07 00 ff ff ff ff 0f 09 07 07 00 ff ff ff ff 0f",
        "9 1\n9 1\n0 0 0 0 0 0 0 0 0 0 8589934590 0 0\n",
    ),
    ("08 04 01 41 01 02", "8 1\n0 1 0 0 0 0 0 0 0 0 0 0 0\n"),
    ("07 ac 02 01 420101x99 42 00", "7 1\n0 0 0 0 0 0 0 0 0 0 0 0 1\n"),
];

/// All bytes, and why they aren't listed.
pub const UNLISTED: [(&str, &str); 11] = [
    ("", "NotAComponent at 0\n"),
    ("00 61 73 6d 01 00 00 00", "NotAComponent at 0\n"),
    ("00 61 73 6d 0d 00 01 00 06 05 01", "BadSection at 8\n"),
    ("00 61 73 6d 0d 00 01 00 06 02 01 09", "BadItem at 8\n"),
    ("00 61 73 6d 0d 00 01 00 00 00", "BadSection at 8\n"),
    ("00 61 73 6d 0d 00 01 00 0c 00", "BadSection at 8\n"),
    ("00 61 73 6d 0d 00 01 00 0a 07 01 00 01 66 01 00 00", "BadItem at 8\n"),
    ("00 61 73 6d 0d 00 01 00 06 06 80 80 80 80 80 00", "BadItem at 8\n"),
    ("00 61 73 6d 0d 00 01 00 06 81 80 80 80 80 00 00", "BadSection at 8\n"),
    (
        "00 61 73 6d 0d 00 01 00 0a 06 01 00 01 66 01 00 0b 07 01 00 01 67 01 00",
        "BadSection at 16\n",
    ),
    ("00 61 73 6d 0d 00 01 00 07 af 02 01 420101x100 42 00", "TooDeep at 8\n"),
];

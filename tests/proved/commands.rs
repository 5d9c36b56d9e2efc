//! Commands, run together and one by one, with each allocation failing in turn.

use crate::proved::tests::refusing::{Refusing, unplanned};
use crate::proved::tests::sweeping::REFUSED;
use crate::proved::wasm_encoder::command::Running;
use crate::proved::wasm_encoder::{Command, Fault, build, list};
use crate::shim::alloc::Global;
use std::vec::Vec;

/// What a command should return: an index, none, or a fault.
type Answer = Result<Option<u32>, Fault>;

/// A section with one item, which the command adds, and the number of its index space.
type Item = (&'static [u8], usize);

/// Commands, and whether the one in the middle allocates, run together and one by one.
struct Case {
    items: &'static [Item],
    are_refused: [bool; 2],
}

impl Case {
    /// The results and the bytes after the header if the command at this position fails, which then
    /// adds nothing and takes no index. Without it, both aliases are in one section.
    fn wanted(&self, refused: Option<usize>) -> (Vec<Answer>, Vec<u8>) {
        let (mut counts, mut answers, mut left) = ([0; 13], Vec::new(), Vec::new());
        for (place, (section, space)) in self.items.iter().enumerate() {
            if refused == Some(place) {
                answers.push(Err(REFUSED));
                continue;
            }
            answers.push(Ok(Some(counts[*space])));
            counts[*space] += 1;
            left.push(*section);
        }
        let are_aliases = left == [FUNCTION.0, OUTER_TYPE.0];
        (answers, if are_aliases { ALIASES.to_vec() } else { left.concat() })
    }
}

/// A function that runs commands, and returns their results and the component.
type Run = fn(Refusing, &[Command]) -> Result<(Vec<Answer>, Vec<u8>), Fault>;

fn at_once(heap: Refusing, commands: &[Command]) -> Result<(Vec<Answer>, Vec<u8>), Fault> {
    let built = build(heap, commands)?;
    Ok((built.answers.as_slice().to_vec(), built.bytes.as_slice().to_vec()))
}

fn one_by_one(heap: Refusing, commands: &[Command]) -> Result<(Vec<Answer>, Vec<u8>), Fault> {
    let mut running = Running::new(heap)?;
    let answers = commands.iter().map(|command| running.run(command)).collect();
    let bytes = running.finish().expect("it is never refused");
    Ok((answers, bytes.as_slice().to_vec()))
}

const HEADER: &[u8] = b"\x00asm\x0d\x00\x01\x00";

/// The command of the item that this section has.
fn command(section: &[u8]) -> Command {
    let listing = unplanned(|| list(Global, &[HEADER, section].concat())).unwrap();
    let mut items = listing.sections.into_iter().flat_map(|section| section.items);
    Command::from(items.next().unwrap())
}

/// The function that the first instance exports.
const FUNCTION: Item = (b"\x06\x06\x01\x01\x00\x00\x01f", 8);

/// Type 1 of the enclosing component.
const OUTER_TYPE: Item = (b"\x06\x05\x01\x03\x02\x00\x01", 12);

/// Both.
const ALIASES: &[u8] = b"\x06\x0a\x02\x01\x00\x00\x01\x66\x03\x02\x00\x01";

/// Of a function, as the first alias is.
const IMPORT: Item = (
    b"\x0a\x4e\x01\x00\x49a name that is longer than a first growth, by far: \
    aaaaaaaaaaaaaaaaaaaaaa\x01\x00",
    8,
);

const RECORD: Item = (b"\x07\x09\x01\x72\x02\x01\x61\x7f\x01\x62\x7f", 12);

/// Runs the commands with allocation number `n` failing, if there is one. Then one command fails,
/// or the whole run.
fn refuse(
    heap: Refusing,
    run: Run,
    commands: &[Command],
    case: &Case,
    n: u64,
) -> Option<Option<usize>> {
    heap.refuse_nth(n);
    let (answers, bytes) = match run(heap, commands) {
        Ok(ran) => ran,
        Err(fault) => {
            assert!(heap.was_refused() && fault == REFUSED);
            return Some(None);
        }
    };
    let place = answers.iter().position(|answer| answer.is_err());
    assert_eq!(place.is_some(), heap.was_refused());
    let (wanted, behind) = case.wanted(place);
    assert_eq!((answers, bytes.strip_prefix(HEADER)), (wanted, Some(&*behind)));
    place.map(Some)
}

/// A command that fails adds nothing, and those after it still run. If opening a record fails, so
/// does the command; if encoding the rest of the type fails, so does the whole run, or if run one
/// by one only the command, whose type is discarded: the alias takes its index.
const CASES: &[Case] = &[
    Case { items: &[FUNCTION, IMPORT, OUTER_TYPE], are_refused: [true; 2] },
    Case { items: &[RECORD], are_refused: [true; 2] },
    Case { items: &[FUNCTION, RECORD, OUTER_TYPE], are_refused: [false, true] },
];

#[test]
fn commands_are_swept() {
    let heap = Refusing::new();
    let runs: [Run; 2] = [at_once, one_by_one];
    for case in CASES {
        let commands: Vec<Command> = case.items.iter().map(|(item, _)| command(item)).collect();
        for (run, is_refused) in runs.into_iter().zip(case.are_refused) {
            let growths = (1..60).map_while(|n| refuse(heap, run, &commands, case, n));
            let growths: Vec<Option<usize>> = growths.collect();
            assert!(growths.len() < 59 && growths.contains(&None), "the builder takes memory");
            assert!(growths.contains(&Some(0)));
            assert_eq!(growths.contains(&Some(commands.len() / 2)), is_refused);
        }
    }
    heap.refuse_none();
}

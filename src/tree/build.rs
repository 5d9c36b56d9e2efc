//! Building by commands.

use super::{Command, Global, proved};
use crate::Error;
use crate::shim::iter::CollectUsing;
use alloc::vec::Vec;

/// A component built from commands, and the index that each command returned.
#[must_use = "its answers say which commands failed"]
#[derive(Clone, Debug, PartialEq, Eq, Hash)]
pub struct Built {
    /// For each command, the index of its item, or its error. Custom sections and names have no
    /// index.
    pub answers: Vec<Result<Option<u32>, Error>>,
    /// The bytes of the component.
    pub bytes: Vec<u8>,
}

/// Runs commands in order on a new builder, and finishes it; returns `Ok` also if commands failed,
/// with their errors among the [`answers`](Built::answers). A command that fails adds nothing, and
/// the commands after it still run.
///
/// # Errors
///
/// [`NoMemory`](Error::NoMemory) for the builder or the results, or the error of a type that can't
/// be encoded; no further command runs then.
///
/// ```
/// use wenc::tree::{Command, build};
///
/// let name = String::from("x");
/// let built = build(&[Command::AppendNames, Command::Custom { name, data: vec![7] }])?;
/// assert_eq!(built.answers, [Ok(None), Ok(None)]);
/// assert_eq!(built.bytes, b"\0asm\x0d\0\x01\0\0\x03\x01x\x07");
/// # Ok::<(), wenc::Error>(())
/// ```
#[must_use = "its answers say which commands failed"]
pub fn build(commands: &[Command]) -> Result<Built, Error> {
    let proved::Built { answers, bytes } = proved::build(Global, commands)?;
    let answers = answers.into_iter().map(|result| result.map_err(Error::from));
    let answers = answers.collect_using(Global).map_err(|_| Error::NoMemory)?;
    Ok(Built { answers, bytes })
}

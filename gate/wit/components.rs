//! Writes components to a folder, for the official WIT parser: those of the tests, and others at
//! random, which import and export interfaces with types of each other.
//!
//!     components FOLDER SEED NUMBER

mod random;
#[allow(dead_code, reason = "texts are for the tests")]
#[path = "../../programs/wenc-dump/tests/dump/wit/rows.rs"]
mod rows;

use std::error::Error;
use std::path::Path;
use std::{env, fs};

fn main() -> Result<(), Box<dyn Error>> {
    let arguments: Vec<String> = env::args().collect();
    let [_, folder, seed, number] = &arguments[..] else { return Err("two arguments".into()) };
    let folder = Path::new(folder);
    for row in rows::rows() {
        let name = row.name.replace(' ', "-");
        fs::write(folder.join(format!("row-{name}.wasm")), row.component)?;
    }
    fs::write(folder.join("row-package.wasm"), rows::package())?;
    let mut random = random::Random::new(seed.parse()?);
    for number in 0..number.parse()? {
        fs::write(folder.join(format!("random-{number:04}.wasm")), random.component())?;
    }
    Ok(())
}

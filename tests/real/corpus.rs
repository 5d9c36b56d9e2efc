//! The files that the tests have.

use std::path::{Path, PathBuf};

/// A file of the corpus, by its path there, for tests of any package.
pub fn path(of: &str) -> PathBuf {
    let folders = Path::new(env!("CARGO_MANIFEST_DIR")).ancestors();
    let mut corpora = folders.map(|folder| folder.join("tests/real/corpus"));
    corpora.find(|corpus| corpus.is_dir()).expect("the corpus is there").join(of)
}

pub fn read(of: &str) -> Vec<u8> {
    let path = path(of);
    std::fs::read(&path).unwrap_or_else(|error| panic!("{}: {error}", path.display()))
}

pub fn text(of: &str) -> String {
    String::from_utf8(read(of)).expect("it is text")
}

/// The names of the components, in their order, and their bytes.
pub fn components() -> Vec<(String, Vec<u8>)> {
    let folder = std::fs::read_dir(path("wasm")).expect("the corpus is there");
    let mut names: Vec<String> = folder
        .map(|file| file.expect("it is told").path())
        .map(|path| path.file_stem().expect("a name").to_str().expect("plain letters").to_owned())
        .collect();
    names.sort();
    let read = |name: String| {
        let bytes = read(&format!("wasm/{name}.wasm"));
        (name, bytes)
    };
    names.into_iter().map(read).collect()
}

//! What reading costs: the component of the builder's bench is listed, or walked item by item with
//! the byte offsets of each. What is printed is how many items came and how long it took.
//!
//!     cargo bench --offline --bench reader -- N HOW [grouped]
//!
//! HOW is `list`; `walk`, where items are borrowed; `steps`, with nested components; `counted`,
//! where indices are counted, too; `check`, where they are compared; `members`, where each member
//! of lists is asked for; or `trees`, where items are owned.
//!
//! `count` counts the instructions that `work` takes.

#[path = "builder.rs"]
#[allow(dead_code)]
mod builder;

use std::hash::{Hash, Hasher};
use std::hint::black_box;
use std::time::Instant;
use wenc::{ReadError, Sections, Step, Walk, list};

/// What is timed: all items are read and dropped. Returns how many there are.
#[inline(never)]
fn work(component: &[u8], how: &str) -> Result<usize, ReadError> {
    match how {
        "list" => Ok(black_box(list(component)?).sections.iter().map(|one| one.items.len()).sum()),
        "walk" => walk(component),
        "steps" => steps(Walk::new(component, 100)?),
        "counted" => steps(Walk::new(component, 100)?.counted()?),
        "check" => Ok(Walk::new(component, 100)?.out_of_range().count()),
        "members" => members(component),
        "trees" => trees(component),
        other => panic!("no work is {other}"),
    }
}

fn walk(component: &[u8]) -> Result<usize, ReadError> {
    let mut count = 0;
    for section in Sections::new(component)? {
        for item in section?.items() {
            black_box(item?);
            count += 1;
        }
    }
    Ok(count)
}

fn steps<'a>(walk: impl Iterator<Item = Step<'a>>) -> Result<usize, ReadError> {
    let mut count = 0;
    for step in walk {
        if let Step::Item(item) = step {
            black_box(item);
            count += 1;
        }
    }
    Ok(count)
}

fn trees(component: &[u8]) -> Result<usize, ReadError> {
    let mut count = 0;
    for section in Sections::new(component)? {
        for item in section?.items() {
            black_box(item?.view.to_tree());
            count += 1;
        }
    }
    Ok(count)
}

/// Takes each part of a value, and keeps little of it.
struct Taken(u64);

impl Hasher for Taken {
    fn write(&mut self, bytes: &[u8]) {
        self.0 = self.0.wrapping_add(bytes.len() as u64);
    }

    fn write_u8(&mut self, number: u8) {
        self.0 = self.0.wrapping_add(number.into());
    }

    fn write_u32(&mut self, number: u32) {
        self.0 = self.0.wrapping_add(number.into());
    }

    fn write_isize(&mut self, number: isize) {
        self.0 = self.0.wrapping_add(number as u64);
    }

    fn finish(&self) -> u64 {
        self.0
    }
}

fn members(component: &[u8]) -> Result<usize, ReadError> {
    let (mut count, mut taken) = (0, Taken(0));
    for section in Sections::new(component)? {
        for item in section?.items() {
            black_box(item?.view).hash(&mut taken);
            count += 1;
        }
    }
    black_box(taken.finish());
    Ok(count)
}

fn main() {
    // `cargo bench` has a word of its own after ours.
    let words: Vec<String> = std::env::args().skip(1).filter(|word| word != "--bench").collect();
    let n = words.first().map_or(Ok(1000), |word| word.parse()).expect("a number of rounds");
    let word = |at| words.get(at).map_or("", String::as_str);
    let component = builder::work(n, word(2), &builder::names(n), &[]);
    let begin = Instant::now();
    let count = work(&component, if word(1).is_empty() { "walk" } else { word(1) });
    let elapsed = begin.elapsed().as_nanos();
    println!("items {}\nnanoseconds {elapsed}", count.expect("it is read"));
}

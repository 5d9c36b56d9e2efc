//! What upstream's validator accepts, and what it refuses.

use crate::toolchain::linker;
use crate::{features, random};

/// The versions of the validator that know the functions on threads as they are here, and whose
/// words are known.
const VERSIONS: [&str; 2] = ["0.245.1", "0.246.2"];

#[test]
fn features_and_a_thousand_random_components() {
    let Some(linker) = linker("features and random components") else { return };
    let is_known = VERSIONS.contains(&linker.version().as_str());
    assert_eq!(linker.refuses(&features::known()), None);
    assert!(!is_known || linker.refuses(&features::threads()).is_none());
    for (component, words) in features::refused() {
        let told = linker.refuses(&component).expect(words);
        assert!(!is_known || told.starts_with(words), "{told}");
    }
    let (mut components, mut calls) = (0, 0);
    for seed in 1..=8 {
        let (bytes, more_components, more_calls) = random::components(seed, 4, true);
        assert_eq!(linker.refuses(&bytes), None, "seed {seed}");
        components += more_components;
        calls += more_calls;
    }
    assert_eq!((components, calls), (1928, 114_628));
}

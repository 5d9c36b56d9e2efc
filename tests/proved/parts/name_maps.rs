//! Names of items, in a map.

use crate::proved::tests::sweeping::check;
use crate::proved::wenc_base::NameMap;
use crate::shim::alloc::Global;

const TWO: &[u8] = &[0x02, 0x05, 0x01, 0x61, 0x01, 0x01, 0x62];

// In another order than that of the indices. A copy is independent.
#[test]
fn names() {
    let mut names = NameMap::new(Global);
    assert!(names.size() == 1 && names.names_len() == 0);
    names.append(5, "a").unwrap();
    names.append(1, "b").unwrap();
    let mut other = names.try_clone().unwrap();
    names.cut_back(1, 3);
    assert_eq!((names.size(), names.names_len()), (4, 3));
    check(&names, &[0x01, 0x05, 0x01, 0x61]);
    names.append(1, "b").unwrap();
    check(&names, TWO);
    check(&other, TWO);
    // The count of 128 names has two bytes.
    for idx in 2..127 {
        other.append(idx, "").unwrap();
    }
    assert_eq!((other.len(), other.size()), (127, 257));
    other.append(127, "").unwrap();
    assert_eq!((other.len(), other.size()), (128, 260));
}

//! Sections of debug names and of producers, built by hand: at each size, and with each allocation
//! failing in turn.

use wenc::tree::Space;
use wenc::*;
use wenc_calls::bytes;
use wenc_calls::encoded::{encoded, written};
use wenc_calls::format::{Model, NAMED, list, sized};
use wenc_calls::refuse::refusing;
use wenc_calls::size::{SIZES, Size};

type Done = Result<(), Error>;

/// The calls that take a map of names, in the order of `NAMED`.
const NAMINGS: [fn(&mut ComponentNameSection, &NameMap) -> Done; 13] = [
    ComponentNameSection::try_core_funcs,
    ComponentNameSection::try_core_tables,
    ComponentNameSection::try_core_memories,
    ComponentNameSection::try_core_globals,
    ComponentNameSection::try_core_tags,
    ComponentNameSection::try_core_types,
    ComponentNameSection::try_core_modules,
    ComponentNameSection::try_core_instances,
    ComponentNameSection::try_instances,
    ComponentNameSection::try_funcs,
    ComponentNameSection::try_types,
    ComponentNameSection::try_components,
    ComponentNameSection::try_values,
];

fn map(a: &Size) -> NameMap {
    let mut map = NameMap::new();
    (0..a.count).for_each(|at| map.append(a.at(at), a.text_at(at)));
    assert_eq!((map.len(), map.is_empty()), (a.count as u32, a.count == 0));
    map
}

fn map_bytes(a: &Size) -> Vec<u8> {
    a.bytes(|at| bytes![a.at(at), a.text_at(at)])
}

/// The section has these subsections, by each call that writes it.
#[track_caller]
fn is_section(section: &ComponentNameSection, subsections: &[u8]) {
    let mut model = Model::new();
    model.add(0, bytes!["component-name", subsections]);
    let wanted = model.finish();
    for section in [section, &section.clone()] {
        let all = [written(section), written(&section.as_custom())];
        assert!(all.iter().flatten().all(|bytes| *bytes == wanted));
        assert_eq!(section.is_empty(), subsections.is_empty());
    }
}

#[test]
fn maps_of_names() {
    for ((naming, (space, sort)), size) in
        NAMINGS.into_iter().zip(NAMED).flat_map(|one| SIZES.map(|size| (one, size)))
    {
        // One map of many names takes long enough.
        let most = if space == Space::Values { size } else { size.min(200) };
        for a in [Size::new(size, most, 1, 2), Size::new(size, 2, size, 1)] {
            let (map, mut section) = (map(&a), ComponentNameSection::new());
            assert!(encoded(&map) == map_bytes(&a) && encoded(&map.clone()) == map_bytes(&a));
            is_section(&section, &[]);
            assert_eq!(naming(&mut section, &map), Ok(()));
            let subsection = bytes![0x01, sized(&bytes![sort, map_bytes(&a)])];
            is_section(&section, &subsection);
            assert_eq!(section.try_names(space, &map), Ok(()));
            is_section(&section, &subsection.repeat(2));
        }
    }
}

#[test]
fn other_subsections() {
    for size in SIZES {
        let (a, mut section) = (Size::new(size, 1, size, size / 2), ComponentNameSection::new());
        section.component(&a.text);
        section.raw(9, a.other.as_bytes());
        let name = bytes![0x00, sized(&bytes![a.text.as_str()])];
        is_section(&section, &bytes![name, 0x09, sized(a.other.as_bytes())]);
    }
}

/// Makes the call, and repeats it if an allocation fails: the value then has these bytes. Returns
/// how many allocations failed.
fn sweep<T>(
    start: &dyn Fn() -> T,
    call: &dyn Fn(&mut T) -> Done,
    text: &dyn Fn(&T) -> Vec<u8>,
    added: &dyn Fn(&[u8]) -> Vec<u8>,
) -> usize {
    let is_refused = |n: &u32| {
        let mut value = start();
        let before = text(&value);
        let (answer, was_refused) = refusing(*n, || call(&mut value));
        if was_refused {
            assert_eq!(answer, Err(Error::NoMemory));
            assert!(text(&value) == before, "it isn't as it was");
            assert_eq!(call(&mut value), Ok(()));
        }
        assert!(text(&value) == added(&before), "the call's bytes");
        was_refused
    };
    (0..40).take_while(is_refused).count()
}

#[test]
fn refused_names() {
    let a = Size::new(128, 40, 70, 3);
    let map = map(&a);
    let requests: usize = (0..9)
        .map(|raw| {
            let start = || {
                let mut section = ComponentNameSection::new();
                (0..raw).for_each(|id| section.raw(id, &[0xaa]));
                section
            };
            let data = |section: &ComponentNameSection| section.as_custom().data.to_vec();
            let mut requests = 0;
            for (naming, (space, sort)) in NAMINGS.into_iter().zip(NAMED) {
                let subsection = bytes![0x01, sized(&bytes![sort, map_bytes(&a)])];
                let added = |before: &[u8]| bytes![before, subsection];
                requests += sweep(&start, &|section| naming(section, &map), &data, &added);
                requests += sweep(&start, &|section| section.try_names(space, &map), &data, &added);
            }
            let name = bytes![0x00, sized(&bytes![a.text.as_str()])];
            let call = |section: &mut ComponentNameSection| section.try_component(&a.text);
            requests += sweep(&start, &call, &data, &|before| bytes![before, name]);
            let call = |section: &mut ComponentNameSection| section.try_raw(9, a.text.as_bytes());
            let raw = bytes![0x09, sized(a.text.as_bytes())];
            requests + sweep(&start, &call, &data, &|before| bytes![before, raw])
        })
        .sum();
    assert!(requests >= 9 * 15, "{requests}");
}

/// A list with one more member.
fn longer(before: &[u8], member: &[u8]) -> Vec<u8> {
    bytes![i32::from(before[0]) + 1, &before[1..], member]
}

#[test]
fn refused_members() {
    let a = Size::new(128, 40, 70, 50);
    let (text, other) = (a.text.as_str(), a.other.as_str());
    let mut requests = 0;
    for members in 0..9_u32 {
        let names = || {
            let mut names = NameMap::new();
            (0..members).for_each(|at| names.append(at, "n"));
            names
        };
        let call = |names: &mut NameMap| names.try_append(9, text);
        let member = bytes![9_u32, text];
        requests += sweep(&names, &call, &encoded, &|before| longer(before, &member));
        let field = || {
            let mut field = ProducersField::new();
            (0..members).for_each(|_| _ = field.value("n", "v"));
            field
        };
        let call = |field: &mut ProducersField| field.try_value(text, other).map(|_| ());
        let member = bytes![text, other];
        requests += sweep(&field, &call, &encoded, &|before| longer(before, &member));
        let section = || {
            let mut section = ProducersSection::new();
            (0..members).for_each(|_| _ = section.field("f", &ProducersField::new()));
            section
        };
        let made = field();
        let call = |section: &mut ProducersSection| section.try_field(text, &made).map(|_| ());
        let fields = |section: &ProducersSection| {
            let custom = encoded(section);
            let at = custom.windows(9).position(|bytes| bytes == b"producers").expect("its name");
            custom[at + 9..].to_vec()
        };
        let member = bytes![text, encoded(&made)];
        requests += sweep(&section, &call, &fields, &|before| longer(before, &member));
    }
    assert!(requests >= 9 * 3, "{requests}");
}

/// The name of the field that the first of these producers has, and theirs.
#[test]
fn producers_by_hand() {
    for size in SIZES {
        let a = Size::new(size, size.min(200), size % 300, 2);
        let (mut field, mut section) = (ProducersField::new(), ProducersSection::new());
        (0..a.count).for_each(|at| _ = field.value(a.text_at(at), a.text_at(at + 1)));
        let values = a.bytes(|at| bytes![a.text_at(at), a.text_at(at + 1)]);
        assert!(encoded(&field) == values);
        (0..a.count).for_each(|at| _ = section.field(a.text_at(at), &field));
        let fields = list((0..a.count).map(|at| bytes![a.text_at(at), values]));
        assert!(encoded(&section) == sized(&bytes!["producers", fields]));
        assert!(encoded(&section.clone()) == sized(&bytes!["producers", fields]));
    }
}

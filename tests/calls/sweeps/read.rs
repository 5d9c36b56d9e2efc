//! Each item is read as the value in its command, encoded and built again, and its indices are
//! visited.

use super::{is_made, same, with_each};
use wenc::tree::{Command, ItemTree};
use wenc::view::ItemView;
use wenc::*;
use wenc_calls::call::Call;
use wenc_calls::format::Model;
use wenc_calls::seen::is_same;
use wenc_calls::size::{Size, cases};
use wenc_calls::visited::{has_indices, visited};

/// The command without a debug name.
fn unnamed(command: Command) -> Command {
    match command {
        Command::Alias { alias, .. } => Command::Alias { debug_name: None, alias },
        command => command,
    }
}

fn is_read(call: &Call, size: &Size) {
    let (mut model, item) = (Model::new(), call.item(size));
    model.add(call.id, item.clone());
    let bytes = model.finish();
    let listing = list(&bytes).unwrap_or_else(|fault| panic!("{}: {fault:?}", call.name));
    let [listed] = listing.sections.as_slice() else { panic!("there is one section") };
    let [tree] = listed.items.as_slice() else { panic!("there is one item") };
    assert!(Command::from(tree.clone()) == unnamed((call.command)(None, size)), "{}", call.name);
    let defined = call.space.map(|space| (space, call.defines(size)));
    assert_eq!(tree.defined_indices(), defined, "{}", call.name);
    if let ItemTree::Canon(canon) = tree {
        assert_eq!(canon.name(), call.name);
    }
    has_indices(tree, &(call.indices)(size), &call.name);
    let mut sections = Sections::new(&bytes).expect("a component");
    let reader = sections.next().expect("a section").expect("it is read");
    assert!(sections.next().is_none());
    let Item { range, view, .. } = reader.items().next().expect("an item").expect("it is read");
    assert!(is_same(view, tree), "{}", call.name);
    assert_eq!(view.defined_indices(), defined, "{}", call.name);
    assert!(visited(view.node()) == (call.indices)(size), "{}: in place", call.name);
    assert!(bytes[range] == item, "{}", call.name);
    let (mut anew, mut kept) = (ItemSection::new(call.id), ItemSection::new(call.id));
    anew.item(tree).expect("it is added");
    kept.raw(&item).expect("it is added");
    let in_component = |section: &dyn Fn(&mut Component)| {
        let mut whole = Component::new();
        section(&mut whole);
        same(whole.as_slice(), &bytes, call, "what was read");
    };
    in_component(&|whole| _ = whole.section(&anew));
    in_component(&|whole| _ = whole.section(&anew.clone()));
    in_component(&|whole| _ = whole.section(&kept));
    in_component(&|whole| _ = whole.section(listed));
    in_component(&|whole| _ = whole.section(&reader));
    in_component(&|whole| _ = whole.section(&reader.raw()));
    is_added(call, size, tree, view);
}

/// The item is added to a builder, owned and borrowed.
fn is_added(call: &Call, size: &Size, tree: &ItemTree, view: ItemView<'_>) {
    let name = call.own.as_ref().map_or_else(|| "name".into(), |own| own(size));
    let (mut b, mut model) = (ComponentBuilder::default(), Model::new());
    for answer in [b.item(Some(&name), tree), b.item(Some(&name), &view)] {
        let index = call.model(&mut model, Some(&name), size);
        assert_eq!(answer, call.space.map(|_| index), "{}", call.name);
    }
    is_made(b, model, call, "of what was read");
}

#[test]
fn each_item() {
    with_each(|call| cases(call).for_each(|size| is_read(call, &size)));
}

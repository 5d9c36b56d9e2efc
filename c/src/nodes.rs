//! The fields of an item, as nodes that a function of C is called with, one by one.

use crate::arguments::{Flag, Text};
use crate::listing::read_item;
use crate::rows::ItemRow;
use crate::walk::Walk;
use crate::{Result, Status, numbers};
use core::ffi::c_void;
use wenc::tree::{Child, Fields, Node};
use wenc::view::ItemView;
use wenc::{Producer, ProducersReader};

/// `wenc_node`: a value of an item.
#[derive(Clone, Copy)]
#[repr(C)]
pub struct NodeRow {
    pub number: u64,
    pub name: Text,
    pub text: Text,
    pub place: usize,
    pub len: usize,
    pub depth: u32,
    pub kind: u32,
    pub space: u32,
    pub scope: u32,
    pub out: u32,
}

/// `wenc_node_visit`: a function of C that is called with nodes, until it returns `false`.
pub type NodeVisit = unsafe extern "C" fn(context: *mut c_void, node: *const NodeRow) -> Flag;

/// The place of a value in its item: its name, if it is a field, the bytes that it was read from,
/// if they are known, and the number of values around it.
#[derive(Clone, Copy)]
struct Place<'a> {
    name: Option<&'a str>,
    encoded: Option<&'a [u8]>,
    depth: u32,
}

impl<'a> Place<'a> {
    /// Returns the place of a field of the value at this place.
    fn field(self, name: &'a str) -> Self {
        Self { name: Some(name), encoded: None, depth: self.depth + 1 }
    }

    /// Returns the place of a value that has no name, in the value at this place.
    fn part(self, encoded: Option<&'a [u8]>) -> Self {
        Self { name: None, encoded, depth: self.depth + 1 }
    }
}

/// Calls a function of C with the nodes of an item of a component. An `Err` is why it ends early:
/// `Done` if the function returned `false`.
struct Visitor<'a> {
    component: &'a [u8],
    is_producers: bool,
    visit: NodeVisit,
    context: *mut c_void,
}

impl Visitor<'_> {
    /// Visits a value, and then those in it. It takes stack for each nested type, of which readers
    /// allow 100, but none for variants and options.
    fn value(&self, mut at: Place<'_>, mut node: Node<'_>) -> Result<(), Status> {
        self.give(at, node)?;
        while let Node::Present(child) | Node::Variant(_, child) = node {
            (at, node) = (at.part(None), child.node());
            self.give(at, node)?;
        }
        match node {
            Node::List(list) => list.try_for_each(|child| self.member(at, child)),
            Node::Tuple(fields) | Node::Record(_, fields) | Node::Struct(_, fields) => {
                let mut fields = fields.iter();
                fields.try_for_each(|(name, child)| self.value(at.field(name), child.node()))
            }
            Node::Bytes(data) if self.is_producers => self.producers(at, data),
            _ => Ok(()),
        }
    }

    fn member(&self, list: Place<'_>, child: Child<'_>) -> Result<(), Status> {
        self.value(list.part(child.encoded()), child.node())
    }

    /// Visits the tools in the data of a producers section.
    fn producers(&self, at: Place<'_>, data: &[u8]) -> Result<(), Status> {
        for tool in ProducersReader::new(data) {
            let Producer { field, name, version } = tool.map_err(|_| Status::Malformed)?;
            let at = at.part(None);
            // a record
            let row = NodeRow { number: 3, text: Text::new("Producer"), ..self.blank(at, 9) };
            self.call(row)?;
            for (part, text) in [("field", field), ("name", name), ("version", version)] {
                self.value(at.field(part), Node::Text(text))?;
            }
        }
        Ok(())
    }

    /// Calls the function with a value. It isn't inlined, so that recursive callers have small
    /// stack frames.
    #[inline(never)]
    fn give(&self, at: Place<'_>, node: Node<'_>) -> Result<(), Status> {
        self.call(self.row(at, node))
    }

    fn call(&self, row: NodeRow) -> Result<(), Status> {
        let goes_on = unsafe { (self.visit)(self.context, &raw const row) };
        if goes_on.is_set() { Ok(()) } else { Err(Status::Done) }
    }

    /// Describes a value, with its number of `enum wenc_node_kind`.
    fn row(&self, at: Place<'_>, node: Node<'_>) -> NodeRow {
        let of = |kind, number| NodeRow { number, ..self.blank(at, kind) };
        let named = |kind, name, number| NodeRow { text: Text::new(name), ..of(kind, number) };
        match node {
            Node::Absent => of(0, 0),
            Node::Present(_) => of(1, 1),
            Node::Number(number) => of(2, number),
            Node::Flag(flag) => of(3, flag.into()),
            Node::Text(text) => self.borrowed(of(4, 0), text.as_bytes()),
            Node::Bytes(bytes) => self.borrowed(of(5, self.tools(bytes)), bytes),
            Node::Index { space, scope, index } | Node::OutOfRange { space, scope, index, .. } => {
                let (space, (scope, out)) = (numbers::of_space(space), numbers::of_scope(scope));
                NodeRow { space, scope, out, ..of(6, index.into()) }
            }
            Node::List(list) => of(7, list.len() as u64),
            Node::Tuple(fields) => of(8, count(fields)),
            Node::Record(name, fields) => named(9, name, count(fields)),
            Node::Word(name) => named(10, name, 0),
            Node::Variant(name, _) => named(11, name, 1),
            Node::Struct(name, fields) => named(12, name, count(fields)),
        }
    }

    /// Describes a value of a kind, without its number and text.
    fn blank(&self, at: Place<'_>, kind: u32) -> NodeRow {
        NodeRow {
            number: 0,
            name: at.name.map_or(Text::NONE, Text::new),
            text: Text::NONE,
            place: at.encoded.map_or(0, |bytes| self.place_of(bytes)),
            len: at.encoded.map_or(0, <[u8]>::len),
            depth: at.depth,
            kind,
            space: numbers::NO_SPACE,
            scope: 0,
            out: 0,
        }
    }

    /// Adds a text or bytes, which are borrowed from the component.
    fn borrowed(&self, row: NodeRow, bytes: &[u8]) -> NodeRow {
        let (place, text) = (self.place_of(bytes), Text::of_bytes(bytes));
        NodeRow { text, place, len: bytes.len(), ..row }
    }

    /// Returns the byte offset of a part of the component.
    fn place_of(&self, part: &[u8]) -> usize {
        part.as_ptr().addr().wrapping_sub(self.component.as_ptr().addr())
    }

    /// Returns the number of tools in the data of a producers section that can be read.
    fn tools(&self, data: &[u8]) -> u64 {
        let tools = self.is_producers.then(|| ProducersReader::new(data));
        tools.map_or(0, |tools| tools.take_while(core::result::Result::is_ok).count() as u64)
    }
}

fn count(fields: Fields<'_>) -> u64 {
    fields.iter().count() as u64
}

#[unsafe(no_mangle)]
pub unsafe extern "C" fn wenc_walk_nodes(
    walk: *const Walk,
    item: *const ItemRow,
    visit: Option<NodeVisit>,
    context: *mut c_void,
) -> Status {
    let visited = || -> Result<(), Status> {
        let (walk, item) = unsafe { (walk.as_ref(), item.as_ref()) };
        let (Some(walk), Some(item), Some(visit)) = (walk, item, visit) else {
            return Err(Status::BadArgument);
        };
        let component = unsafe { walk.bytes() }?;
        let section = numbers::section(item.section).ok_or(Status::BadArgument)?;
        let range = item.place..item.place.saturating_add(item.len);
        let encoded = component.get(range).ok_or(Status::BadArgument)?;
        let view = read_item(section, encoded)?;
        let is_producers = matches!(view, ItemView::Custom { name: ProducersReader::SECTION, .. });
        let at = Place { name: None, encoded: Some(encoded), depth: 0 };
        Visitor { component, is_producers, visit, context }.value(at, view.node())
    };
    visited().err().unwrap_or(Status::Done)
}

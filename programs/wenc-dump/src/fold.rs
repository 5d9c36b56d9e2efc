//! The text of a node: on one line if it fits, else with each part on its own line.

use super::colours::Hue;
use super::phrase::{fields_of, is_phrase};
use super::text::Text;
use std::fmt::Display;
use std::io::{self, Write};
use wenc::DebugNames;
use wenc::tree::{Child, Fields, List, Node, Scope};

/// The number of characters that are printed of a name after an index. A long one may
/// be printed many times.
const NAME: usize = 80;

/// The debug names of the components around a node, the outermost first.
pub type Names<'a> = &'a [DebugNames];

/// An upper bound of the number of bytes that a column of output is read from: a number of 64 bits
/// is read from at most 10 bytes, and a character from at most 4.
const COLUMN: usize = 16;

/// Returns whether the node fits in this many columns. Nothing is read past these columns, nor at
/// all if the node is encoded in too many bytes: so a large node isn't read again for each level
/// around it.
fn fits(node: &Node, encoded_len: Option<usize>, names: Names, columns: usize) -> bool {
    encoded_len.is_none_or(|len| len / COLUMN <= columns)
        && Text::within(columns, &mut io::sink()).flat(node, names).is_ok()
}

/// The members of a node.
enum Members<'a> {
    /// The members of a list.
    List(List<'a>),
    /// Other members, and whether their names are printed.
    Fields(Fields<'a>, bool),
}

impl<'a> Members<'a> {
    /// Returns the members of the innermost brackets of a node; `None` if these are empty.
    fn of(node: &Node<'a>) -> Option<Self> {
        match node {
            Node::List(list) => (!list.is_empty()).then_some(Self::List(*list)),
            Node::Tuple(values) => Some(Self::Fields(*values, false)),
            Node::Record(name, _) if is_phrase(name) => None,
            Node::Record(_, fields) | Node::Struct(_, fields) => Some(Self::Fields(*fields, true)),
            Node::Variant(_, part) => Self::of(&part.node()),
            _ => None,
        }
    }

    /// Calls a function with each member in order, and its name, up to the first error.
    fn try_each<E>(
        &self,
        mut each: impl FnMut(Option<&'static str>, Child<'_>) -> Result<(), E>,
    ) -> Result<(), E> {
        match self {
            Self::List(list) => list.try_for_each(|part| each(None, part)),
            Self::Fields(fields, are_named) => {
                fields.iter().try_for_each(|(key, part)| each(are_named.then_some(key), part))
            }
        }
    }
}

/// Returns the debug name of the item that an index refers to. Declarations of types have none.
fn name_of<'a>(node: &Node, names: Names<'a>) -> Option<&'a str> {
    let Node::Index { space, scope: Scope::Component(out), index } = *node else { return None };
    names.iter().rev().nth(usize::try_from(out).ok()?)?.get(space, index)
}

impl Text<'_> {
    /// Writes a node on a line of this depth, with `after` columns left for what follows it. The
    /// node is encoded in `encoded_len` bytes, if that is known.
    pub(super) fn node(
        &mut self,
        node: &Node,
        encoded_len: Option<usize>,
        names: Names,
        depth: usize,
        after: usize,
    ) -> io::Result<()> {
        match node {
            Node::Record(name, fields) if is_phrase(name) => {
                return self.phrase(name, *fields, |text, node| {
                    text.node(node, None, names, depth, after)
                });
            }
            _ => {}
        }
        if self.style.columns == usize::MAX {
            return self.flat(node, names);
        }
        let columns = self.style.columns.saturating_sub(self.columns + after);
        match Members::of(node) {
            Some(members) if !fits(node, encoded_len, names, columns) => {
                self.unfold(node, &members, names, depth)
            }
            _ => self.flat(node, names),
        }
    }

    /// Writes each member of a node on its own line.
    fn unfold(
        &mut self,
        node: &Node,
        members: &Members,
        names: Names,
        depth: usize,
    ) -> io::Result<()> {
        self.bracket(node, true)?;
        self.end_line()?;
        members.try_each(|key, part| {
            self.begin_line(depth + 1)?;
            self.key(key)?;
            self.node(&part.node(), part.encoded_len(), names, depth + 1, 1)?;
            self.plain(",")?;
            self.end_line()
        })?;
        self.begin_line(depth)?;
        self.bracket(node, false)
    }

    /// Writes a node on the line.
    fn flat(&mut self, node: &Node, names: Names) -> io::Result<()> {
        if let Some(members) = Members::of(node) {
            return self.flat_members(node, &members, names);
        }
        match node {
            Node::Absent => self.plain("None"),
            Node::Number(number) => write!(self, "{number}"),
            Node::Flag(flag) => write!(self, "{flag}"),
            Node::Text(text) => self.piece(Hue::Name, format_args!("{text:?}")),
            Node::Word(word) => self.plain(word),
            Node::Index { index, .. } => self.index(index, name_of(node, names)),
            Node::OutOfRange { index, .. } => self.piece(Hue::Fault, format_args!("{index}!")),
            Node::Present(part) => self.flat_variant("Some", &part.node(), names),
            Node::Variant(name, part) => self.flat_variant(name, &part.node(), names),
            Node::Record(name, fields) => {
                self.phrase(name, *fields, |text, node| text.flat(node, names))
            }
            // those of items aren't printed here
            Node::Bytes(_) => Ok(()),
            Node::List(_) | Node::Tuple(_) | Node::Struct(..) => {
                self.bracket(node, true)?;
                self.bracket(node, false)
            }
        }
    }

    fn flat_members(&mut self, node: &Node, members: &Members, names: Names) -> io::Result<()> {
        let space = if matches!(members, Members::Fields(_, true)) { " " } else { "" };
        let mut lead = space;
        self.bracket(node, true)?;
        members.try_each(|key, part| {
            self.plain(lead)?;
            lead = ", ";
            self.key(key)?;
            self.flat(&part.node(), names)
        })?;
        self.plain(space)?;
        self.bracket(node, false)
    }

    /// Writes a variant whose part has no members. The name of an index follows the bracket.
    fn flat_variant(&mut self, name: &str, part: &Node, names: Names) -> io::Result<()> {
        match part {
            Node::Index { index, .. } => {
                self.index(format_args!("{name}({index})"), name_of(part, names))
            }
            Node::OutOfRange { index, .. } => {
                self.piece(Hue::Fault, format_args!("{name}({index})!"))
            }
            _ => {
                write!(self, "{name}(")?;
                self.flat(part, names)?;
                self.plain(")")
            }
        }
    }

    /// Writes an index, followed by the name of the item that it refers to.
    fn index(&mut self, index: impl Display, name: Option<&str>) -> io::Result<()> {
        write!(self, "{index}")?;
        let Some(name) = name else { return Ok(()) };
        let end = name.char_indices().nth(NAME).map_or(name.len(), |(end, _)| end);
        let (shown, rest) = name.split_at(end);
        self.named(" ", Some(shown))?;
        self.plain(if rest.is_empty() { "" } else { "..." })
    }

    /// Writes the fields of a phrase, each after its words.
    fn phrase(
        &mut self,
        name: &str,
        fields: Fields,
        write: impl Fn(&mut Self, &Node) -> io::Result<()>,
    ) -> io::Result<()> {
        for (at, (words, node)) in fields_of(name, fields).enumerate() {
            self.plain(if at == 0 { "" } else { " " })?;
            self.plain(words)?;
            self.plain(if words.is_empty() { "" } else { " " })?;
            write(self, &node)?;
        }
        Ok(())
    }

    /// Writes the name of a member, if it has one.
    fn key(&mut self, key: Option<&str>) -> io::Result<()> {
        key.map_or(Ok(()), |key| write!(self, "{key}: "))
    }

    /// Writes the text that opens or closes the members of a node.
    fn bracket(&mut self, node: &Node, opens: bool) -> io::Result<()> {
        match node {
            Node::List(_) => self.plain(if opens { "[" } else { "]" }),
            Node::Tuple(_) => self.plain(if opens { "(" } else { ")" }),
            Node::Struct(name, _) if opens => write!(self, "{name} {{"),
            Node::Record(..) | Node::Struct(..) => self.plain(if opens { "{" } else { "}" }),
            Node::Variant(name, part) => {
                let part = part.node();
                let (front, back) = match part {
                    Node::Record(..) => (" ", ""),
                    _ => ("(", ")"),
                };
                if opens {
                    write!(self, "{name}{front}")?;
                }
                self.bracket(&part, opens)?;
                self.plain(if opens { "" } else { back })
            }
            _ => Ok(()),
        }
    }
}

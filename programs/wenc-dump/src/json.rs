//! A report as JSON: a line for each file.

use super::fault::Fault;
use super::report::{Content, Contents, Entry, Label, Part, Report, Rest};
use super::walk::DEPTH;
use std::ffi::OsStr;
use std::fmt::{self, Display, Write as _};
use std::io::{self, Write};
use std::mem;
use std::ops::Range;
use wenc::Producer;
use wenc::tree::{Child, Fields, Node, Scope, UsedIndex};

/// The version of the format: it rises when what reads an earlier one may fail.
const VERSION: u32 = 1;

/// The maximum number of open parts: the file, a section and an item for each component that is
/// nested in it and for a module, and a section and an item of that module.
const PARTS: usize = 1 + 2 * (DEPTH + 1) + 2;

/// JSON, as the manual page of `wenc-dump` describes it.
pub struct Json<'o> {
    out: &'o mut dyn Write,
    has_bytes: bool,
    /// Whether fields that are null are left out.
    is_compact: bool,
    /// The open parts.
    open: Vec<Open>,
    /// Whether the open list is still empty.
    is_first: bool,
}

/// The texts that close a part.
struct Open {
    /// The text that closes its list; `None` once that is written, with the byte offset of what
    /// can't be read.
    list: Option<&'static str>,
    /// Whether the part has a field for that byte offset even if everything is read.
    has_unread: bool,
    /// The text that closes its object.
    object: &'static str,
}

/// A string within quotes.
pub(super) struct Quoted<T>(pub T);

impl<T: Display> Display for Quoted<T> {
    fn fmt(&self, f: &mut fmt::Formatter<'_>) -> fmt::Result {
        f.write_str("\"")?;
        write!(Letters(f), "{}", self.0)?;
        f.write_str("\"")
    }
}

/// The name of a file within quotes: a byte that isn't UTF-8 is a surrogate, U+DC00 and the byte.
struct FileName<'a>(&'a OsStr);

impl Display for FileName<'_> {
    fn fmt(&self, f: &mut fmt::Formatter<'_>) -> fmt::Result {
        f.write_str("\"")?;
        for chunk in self.0.as_encoded_bytes().utf8_chunks() {
            Letters(f).write_str(chunk.valid())?;
            chunk.invalid().iter().try_for_each(|byte| write!(f, "\\udc{byte:02x}"))?;
        }
        f.write_str("\"")
    }
}

/// A writer of the characters of a string.
struct Letters<'f, 'a>(&'f mut fmt::Formatter<'a>);

/// Returns whether a character is escaped: if JSON requires it, and if it is invisible, breaks a
/// line or changes the direction of the text.
fn is_escaped(letter: char) -> bool {
    matches!(letter, '"' | '\\')
        || letter.is_control()
        || matches!(letter, '\u{61c}' | '\u{200e}' | '\u{200f}')
        || matches!(letter, '\u{2028}'..='\u{202e}' | '\u{2066}'..='\u{2069}')
}

impl fmt::Write for Letters<'_, '_> {
    fn write_str(&mut self, mut text: &str) -> fmt::Result {
        while let Some((at, letter)) = text.char_indices().find(|(_, letter)| is_escaped(*letter)) {
            self.0.write_str(&text[..at])?;
            match letter {
                '"' | '\\' => write!(self.0, "\\{letter}")?,
                _ => write!(self.0, "\\u{:04x}", u32::from(letter))?,
            }
            text = &text[at + letter.len_utf8()..];
        }
        self.0.write_str(text)
    }
}

impl<'o> Json<'o> {
    /// Creates a writer of JSON, with or without the bytes of items, and fields that are null.
    pub fn new(out: &'o mut dyn Write, has_bytes: bool, is_compact: bool) -> Self {
        Self { out, has_bytes, is_compact, open: Vec::with_capacity(PARTS), is_first: true }
    }

    fn put(&mut self, text: &str) -> io::Result<()> {
        self.out.write_all(text.as_bytes())
    }

    /// Writes a key, after a comma or a brace in `lead`, and its value or null.
    fn field(&mut self, lead: &str, key: &str, value: Option<impl Display>) -> io::Result<()> {
        if value.is_none() && self.is_compact && lead == "," {
            return Ok(());
        }
        write!(self.out, "{lead}\"{key}\":")?;
        match value {
            Some(value) => write!(self.out, "{value}"),
            None => self.put("null"),
        }
    }

    /// Writes the beginning of an object with this range.
    fn range(&mut self, range: &Range<usize>) -> io::Result<()> {
        write!(self.out, "{{\"start\":{},\"end\":{}", range.start, range.end)
    }

    /// Writes the beginning of a list's member with this range.
    fn member(&mut self, range: &Range<usize>) -> io::Result<()> {
        if !self.is_first {
            self.put(",")?;
        }
        self.range(range)
    }

    fn label(&mut self, label: Option<&Label>) -> io::Result<()> {
        let Some(Label { space, from, count, name }) = label else {
            if self.is_compact {
                return Ok(());
            }
            return self.put(",\"space\":null,\"index\":null,\"count\":0,\"name\":null");
        };
        self.field(",", "space", Some(Quoted(space)))?;
        self.field(",", "index", *from)?;
        self.field(",", "count", Some(count))?;
        self.field(",", "name", name.map(Quoted))
    }

    /// Writes the cause of a fault, if it is known.
    fn cause(&mut self, cause: Option<(usize, String)>) -> io::Result<()> {
        let Some((place, words)) = cause else { return Ok(()) };
        self.put(",\"cause\":")?;
        self.field("{", "place", Some(place))?;
        self.field(",", "message", Some(Quoted(words)))?;
        self.put("}")
    }

    /// Writes a field with bytes in hexadecimal, if they are wanted and there are any.
    fn bytes(&mut self, key: &str, bytes: &[u8]) -> io::Result<()> {
        if !self.has_bytes || bytes.is_empty() {
            return Ok(());
        }
        write!(self.out, ",\"{key}\":\"")?;
        for byte in bytes {
            write!(self.out, "{byte:02x}")?;
        }
        self.put("\"")
    }

    /// Writes the content of a file or an item. Returns the text that closes it.
    fn content(&mut self, range: &Range<usize>, content: &Content) -> io::Result<Open> {
        match content {
            Content::Component(name) => {
                self.range(range)?;
                self.field(",", "name", name.map(Quoted))?;
                self.put(",\"sections\":[")?;
                Ok(Open { list: Some("]"), has_unread: false, object: "}" })
            }
            Content::Module => {
                self.range(range)?;
                self.put(",\"sections\":[")?;
                Ok(Open { list: Some("]"), has_unread: true, object: "}" })
            }
            Content::Custom(name, size, contents) => {
                self.field("{", "name", Some(Quoted(name)))?;
                self.field(",", "size", Some(size))?;
                let list = self.contents(*contents)?;
                Ok(Open { list: Some(list), has_unread: true, object: "}" })
            }
            Content::Node(node, _) => {
                self.node(node)?;
                Ok(Open { list: Some(""), has_unread: false, object: "" })
            }
        }
    }

    fn node(&mut self, node: &Node) -> io::Result<()> {
        match node {
            // the bytes of items aren't printed here
            Node::Absent | Node::Bytes(_) => self.put("null"),
            Node::Present(part) => self.child(*part),
            Node::Number(number) => write!(self.out, "{number}"),
            Node::Flag(flag) => write!(self.out, "{flag}"),
            Node::Text(text) => write!(self.out, "{}", Quoted(text)),
            Node::Word(word) => write!(self.out, "{}", Quoted(word)),
            Node::Index { index, .. } | Node::OutOfRange { index, .. } => {
                write!(self.out, "{index}")
            }
            Node::List(list) => {
                let mut lead = "[";
                list.try_for_each(|value| self.element(&mut lead, value))?;
                self.put(if list.is_empty() { "[]" } else { "]" })
            }
            Node::Tuple(values) => {
                let mut lead = "[";
                values.iter().try_for_each(|(_, value)| self.element(&mut lead, value))?;
                self.put("]")
            }
            Node::Record("NameTree", fields) => self.name(*fields),
            Node::Record(_, fields) => self.fields(fields.iter()),
            Node::Variant(name, part) => self.fields([(*name, *part)]),
            Node::Struct(name, fields) => {
                write!(self.out, "{{\"{name}\":")?;
                self.fields(fields.iter())?;
                self.put("}")
            }
        }
    }

    /// Writes a part, in a stack frame of its own: nodes are large, and this recurses by their
    /// depth.
    #[inline(never)]
    fn child(&mut self, child: Child) -> io::Result<()> {
        self.node(&child.node())
    }

    /// Writes an element of a list after the text in `lead`, which becomes a comma.
    fn element(&mut self, lead: &mut &str, value: Child) -> io::Result<()> {
        self.put(lead)?;
        *lead = ",";
        self.child(value)
    }

    /// Writes a name as the owned type has it: its options are an object, unless it has none.
    fn name(&mut self, fields: Fields) -> io::Result<()> {
        let mut has_options = false;
        for (key, part) in fields.iter() {
            match (key, part.node()) {
                ("name", name) => {
                    self.put("{\"name\":")?;
                    self.node(&name)?;
                }
                (_, option) => has_options |= !matches!(option, Node::Absent),
            }
        }
        self.put(",\"options\":")?;
        if has_options {
            self.fields(fields.iter().skip(1))?
        } else {
            self.put("null")?
        }
        self.put("}")
    }

    fn fields<'a>(
        &mut self,
        fields: impl IntoIterator<Item = (&'static str, Child<'a>)>,
    ) -> io::Result<()> {
        self.put("{")?;
        let mut lead = "\"";
        for (key, part) in fields {
            if self.is_compact && matches!(part.node(), Node::Absent) {
                continue;
            }
            self.put(mem::replace(&mut lead, ",\""))?;
            self.put(key)?;
            self.put("\":")?;
            self.child(part)?;
        }
        self.put("}")
    }

    /// Begins the list of the contents of a custom section. Returns the text that ends it.
    fn contents(&mut self, contents: Contents) -> io::Result<&'static str> {
        let (front, back) = match contents {
            Contents::Names => (",\"names\":[", "]"),
            Contents::Producers => (",\"producers\":[", "]"),
            Contents::Other => ("", ""),
        };
        self.put(front)?;
        Ok(back)
    }

    /// Begins the lists of a section, which is one of a core module if it has contents. Returns
    /// the text that closes them.
    fn items(&mut self, contents: Option<Contents>) -> io::Result<Open> {
        self.put(",\"items\":[")?;
        let list = match contents {
            None | Some(Contents::Other) => "]",
            Some(contents) => {
                self.put("]")?;
                self.contents(contents)?
            }
        };
        Ok(Open { list: Some(list), has_unread: contents.is_some(), object: "}" })
    }

    /// Writes a part of a custom section, up to the bracket that ends it.
    fn entry(&mut self, entry: &Entry) -> io::Result<()> {
        let lead = if self.is_first { "{" } else { ",{" };
        match entry {
            Entry::Name(of, name) => {
                let (space, index) = of.unzip();
                self.field(lead, "space", space.map(Quoted))?;
                self.field(",", "index", index)?;
                self.field(",", "name", Some(Quoted(name)))
            }
            Entry::Tool(Producer { field, name, version }) => {
                self.field(lead, "field", Some(Quoted(field)))?;
                self.field(",", "name", Some(Quoted(name)))?;
                self.field(",", "version", Some(Quoted(version)))
            }
        }
    }

    /// Writes a part up to its contents. Returns the text that closes it.
    fn front(&mut self, part: &Part) -> io::Result<Open> {
        match part {
            Part::File(range, content) => {
                let is_module = matches!(content, Content::Module);
                self.put(if is_module { ",\"module\":" } else { ",\"component\":" })?;
                self.content(range, content)
            }
            Part::Section { range, id, word, count, core, .. } => {
                self.member(range)?;
                self.field(",", "id", Some(id))?;
                self.field(",", "kind", word.map(Quoted))?;
                if let Some(core) = core {
                    self.field(",", "name", core.name.map(Quoted))?;
                }
                self.field(",", "count", *count)?;
                self.bytes("hex", core.as_ref().map_or(&[], |core| core.bytes))?;
                self.items(core.as_ref().map(|core| core.contents))
            }
            Part::Entry(entry) => {
                self.entry(entry)?;
                Ok(Open { list: Some(""), has_unread: false, object: "}" })
            }
            Part::Item { range, label, content, bytes, .. } => {
                self.member(range)?;
                self.label(label.as_ref())?;
                self.bytes("hex", bytes)?;
                self.put(",\"item\":")?;
                let open = self.content(range, content)?;
                Ok(Open { object: if open.object.is_empty() { "}" } else { "}}" }, ..open })
            }
        }
    }
}

impl Report for Json<'_> {
    fn begin(&mut self, file: &OsStr) -> io::Result<()> {
        self.field("{", "version", Some(VERSION))?;
        self.field(",", "file", Some(FileName(file)))
    }

    fn open(&mut self, part: &Part) -> io::Result<()> {
        let open = self.front(part)?;
        self.open.push(open);
        self.is_first = true;
        Ok(())
    }

    fn unread(&mut self, place: usize, _: &str, rest: Rest) -> io::Result<()> {
        let Some(list) = self.open.last_mut().and_then(|open| open.list.take()) else {
            return Ok(());
        };
        write!(self.out, "{list},\"unread\":{place}")?;
        self.bytes("unread_hex", if rest.are_reported { &[] } else { rest.bytes })
    }

    fn out_of_range(&mut self, _: usize, used: &UsedIndex) -> io::Result<()> {
        let Some(open) = self.open.last_mut() else { return Ok(()) };
        let lead = if open.list == Some("") { ",\"out_of_range\":[{" } else { ",{" };
        open.list = Some("]");
        let (key, scope) = match used.scope {
            Scope::Component(out) => ("component", out),
            Scope::Type(depth) => ("type", depth),
        };
        self.field(lead, "space", Some(Quoted(used.space)))?;
        self.field(",", key, Some(scope))?;
        self.field(",", "index", Some(used.index))?;
        self.field(",", "count", Some(used.count.unwrap_or_default()))?;
        self.put("}")
    }

    /// Flushes the output between lines only.
    fn flush(&mut self) -> io::Result<()> {
        if self.open.is_empty() { self.out.flush() } else { Ok(()) }
    }

    fn close(&mut self) -> io::Result<()> {
        let Some(Open { list, has_unread, object }) = self.open.pop() else {
            return Ok(());
        };
        if let Some(list) = list {
            self.put(list)?;
            self.put(if has_unread && !self.is_compact { ",\"unread\":null" } else { "" })?;
        }
        self.is_first = false;
        self.put(object)
    }

    fn end(&mut self, fault: Option<&Fault>) -> io::Result<()> {
        while !self.open.is_empty() {
            self.close()?;
        }
        self.put(",\"fault\":")?;
        match fault {
            None => self.put("null")?,
            Some(fault) => {
                self.field("{", "place", fault.place)?;
                self.field(",", "message", Some(Quoted(fault)))?;
                self.cause(fault.cause())?;
                self.put("}")?;
            }
        }
        self.put("}\n")
    }
}

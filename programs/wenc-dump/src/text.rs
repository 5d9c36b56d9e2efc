//! A report as text.

use super::check::OutOfRange;
use super::colours::Hue;
use super::escape::Escaped;
use super::fault::Fault;
use super::report::{Content, Entry, Label, Part, Report, Rest};
use super::words;
use std::ffi::OsStr;
use std::fmt::{self, Debug, Display};
use std::io::{self, Write};
use std::ops::Range;
use wenc::Producer;
use wenc::tree::UsedIndex;

/// The maximum number of columns of a line that can be folded, unless another one is given.
pub const COLUMNS: usize = 100;

/// The maximum indentation in columns: so each line has space for text, and the size of the output
/// is linear in that of the file.
const INDENTATION: usize = 40;

/// The number of bytes in a line of bytes.
const BYTES: usize = 16;

/// How text is laid out.
#[derive(Clone, Copy, Default)]
pub struct Style {
    pub has_colours: bool,
    /// Whether it has the bytes of items.
    pub has_bytes: bool,
    /// Whether it has the names of files.
    pub has_titles: bool,
    /// The maximum number of columns of a line that can be folded.
    pub columns: usize,
}

/// Text whose lines are indented by their depth.
pub struct Text<'o> {
    out: &'o mut dyn Write,
    pub(super) style: Style,
    /// The number of open parts.
    depth: usize,
    /// The number of columns that are written on the line.
    pub(super) columns: usize,
    /// The number of columns after which writes fail.
    most: usize,
}

/// Writes on the line.
impl Write for Text<'_> {
    fn write(&mut self, bytes: &[u8]) -> io::Result<usize> {
        self.write_all(bytes)?;
        Ok(bytes.len())
    }

    fn write_all(&mut self, bytes: &[u8]) -> io::Result<()> {
        self.out.write_all(bytes)?;
        // each character has one byte that isn't a continuation byte
        self.columns += bytes.iter().filter(|byte| **byte & 0xc0 != 0x80).count();
        if self.columns > self.most { Err(io::ErrorKind::WriteZero.into()) } else { Ok(()) }
    }

    fn flush(&mut self) -> io::Result<()> {
        self.out.flush()
    }
}

impl<'o> Text<'o> {
    /// Creates a writer of text.
    pub fn new(out: &'o mut dyn Write, style: Style) -> Self {
        Self { out, style, depth: 0, columns: 0, most: usize::MAX }
    }

    /// Creates a writer of text without colours, which fails after this many columns of a line.
    pub(super) fn within(most: usize, out: &'o mut dyn Write) -> Self {
        Self { most, ..Self::new(out, Style::default()) }
    }

    /// Writes a piece of text, in its colour.
    pub(super) fn piece(&mut self, hue: Hue, text: fmt::Arguments) -> io::Result<()> {
        if !self.style.has_colours {
            return self.write_fmt(text);
        }
        write!(self.out, "\x1b[{}m", hue as u8)?;
        self.write_fmt(text)?;
        write!(self.out, "\x1b[0m")
    }

    /// Writes a piece of text, without a colour.
    pub(super) fn plain(&mut self, text: &str) -> io::Result<()> {
        self.write_all(text.as_bytes())
    }

    pub(super) fn begin_line(&mut self, depth: usize) -> io::Result<()> {
        self.columns = INDENTATION.min(2 * depth);
        self.out.write_all(&[b' '; INDENTATION][..self.columns])
    }

    pub(super) fn end_line(&mut self) -> io::Result<()> {
        self.out.write_all(b"\n")
    }

    /// Writes a byte offset, or a range of them.
    fn place(&mut self, place: impl Debug) -> io::Result<()> {
        self.piece(Hue::Place, format_args!("{place:#x?}"))?;
        self.plain(" ")
    }

    /// Writes a name in quotes, after this text.
    pub(super) fn named(&mut self, lead: &str, name: Option<&str>) -> io::Result<()> {
        let Some(name) = name else { return Ok(()) };
        self.plain(lead)?;
        self.piece(Hue::Name, format_args!("{name:?}"))
    }

    fn size(&mut self, size: usize) -> io::Result<()> {
        write!(self, ", {}", words::Counted(size, "byte"))
    }

    fn label(&mut self, label: &Label) -> io::Result<()> {
        let word = label.space;
        match (label.count, label.from) {
            (0, _) => write!(self, "no {word}")?,
            (_, None) => self.piece(Hue::Index, format_args!("{word} ?"))?,
            (1, Some(from)) => self.piece(Hue::Index, format_args!("{word} {from}"))?,
            (count, Some(from)) => {
                let to = from + u64::from(count) - 1;
                self.piece(Hue::Index, format_args!("{word} {from} to {to}"))?;
            }
        }
        self.named(" ", label.name)
    }

    fn file(&mut self, range: &Range<usize>, content: &Content) -> io::Result<()> {
        self.place(range)?;
        match content {
            Content::Component(name) => {
                self.plain("component")?;
                self.named(" ", *name)?;
            }
            _ => self.plain("core module")?,
        }
        self.size(range.len())
    }

    fn item(
        &mut self,
        range: &Range<usize>,
        label: Option<&Label>,
        content: &Content,
    ) -> io::Result<()> {
        match content {
            Content::Component(_) | Content::Module => self.place(range)?,
            _ => self.place(range.start)?,
        }
        if let Some(label) = label {
            self.label(label)?;
        }
        match content {
            Content::Component(own) => {
                self.named(": component ", *own)?;
                self.size(range.len())
            }
            Content::Module => self.size(range.len()),
            Content::Custom(name, size, _) => {
                self.named("custom ", Some(name))?;
                self.size(*size)
            }
            Content::Node(node, names) => {
                self.plain(if label.is_some() { ": " } else { "" })?;
                self.node(node, Some(range.len()), names, self.depth, 0)
            }
        }
    }

    /// Writes a part of a custom section.
    fn entry(&mut self, entry: &Entry) -> io::Result<()> {
        match entry {
            Entry::Name(None, name) => self.named("component ", Some(name)),
            Entry::Name(Some((space, index)), name) => {
                self.piece(Hue::Index, format_args!("{space} {index}"))?;
                self.named(" ", Some(name))
            }
            Entry::Tool(Producer { field, name, version }) => {
                self.piece(Hue::Name, format_args!("{field:?}"))?;
                self.named(" ", Some(name))?;
                self.named(" ", Some(version))
            }
        }
    }

    /// Writes a line within the innermost open part, after a byte offset.
    pub(super) fn line_of(&mut self, place: usize, text: impl Display) -> io::Result<()> {
        self.begin_line(self.depth)?;
        self.place(place)?;
        write!(self, "{text}")?;
        self.end_line()
    }

    /// Writes lines of bytes, from this byte offset on, and whether bytes after them are left out.
    fn bytes(&mut self, mut place: usize, bytes: &[u8], has_more: bool) -> io::Result<()> {
        for some in bytes.chunks(BYTES) {
            self.begin_line(self.depth + 1)?;
            self.piece(Hue::Place, format_args!("{place:#x}:"))?;
            some.iter().try_for_each(|byte| write!(self, " {byte:02x}"))?;
            self.plain(if has_more { " ..." } else { "" })?;
            self.end_line()?;
            place += some.len();
        }
        Ok(())
    }

    /// Writes the line of a part. Returns the bytes that follow it, and their byte offset.
    fn line<'b>(&mut self, part: &Part<'b>) -> io::Result<(usize, &'b [u8])> {
        match part {
            Part::File(range, content) => {
                self.file(range, content)?;
                Ok((0, &[]))
            }
            Part::Section { range, id, word, count, core, .. } => {
                self.place(range)?;
                match word {
                    Some(word) => write!(self, "{word} section")?,
                    None => write!(self, "section {id}")?,
                }
                self.named(" ", core.as_ref().and_then(|core| core.name))?;
                self.size(range.len())?;
                if let Some(count) = *count {
                    // a count of 32 bits fits
                    write!(self, ", {}", words::Counted(count as usize, "item"))?;
                }
                let bytes = core.as_ref().map_or(&[][..], |core| core.bytes);
                Ok((range.end - bytes.len(), bytes))
            }
            Part::Item { range, label, content, bytes, .. } => {
                self.item(range, label.as_ref(), content)?;
                Ok((range.start, bytes))
            }
            Part::Entry(entry) => {
                self.entry(entry)?;
                Ok((0, &[]))
            }
        }
    }
}

impl Report for Text<'_> {
    fn begin(&mut self, file: &OsStr) -> io::Result<()> {
        self.depth = 0;
        if self.style.has_titles {
            write!(self, "{}:", Escaped(file))?;
            self.end_line()?;
        }
        Ok(())
    }

    fn open(&mut self, part: &Part) -> io::Result<()> {
        self.begin_line(self.depth)?;
        let (place, bytes) = self.line(part)?;
        self.end_line()?;
        if self.style.has_bytes {
            self.bytes(place, bytes, false)?;
        }
        self.depth += 1;
        Ok(())
    }

    fn unread(&mut self, place: usize, what: &str, rest: Rest) -> io::Result<()> {
        self.begin_line(self.depth)?;
        self.place(place)?;
        self.plain(what)?;
        self.end_line()?;
        let Rest { bytes, are_reported } = rest;
        let shown = match (self.style.has_bytes, are_reported) {
            (true, true) => return Ok(()),
            (true, false) => bytes.len(),
            (false, _) => BYTES.min(bytes.len()),
        };
        self.bytes(place, &bytes[..shown], shown < bytes.len())
    }

    fn out_of_range(&mut self, place: usize, index: &UsedIndex) -> io::Result<()> {
        self.line_of(place, OutOfRange(index))
    }

    fn flush(&mut self) -> io::Result<()> {
        self.out.flush()
    }

    fn close(&mut self) -> io::Result<()> {
        self.depth -= 1;
        Ok(())
    }

    fn end(&mut self, _: Option<&Fault>) -> io::Result<()> {
        Ok(())
    }
}

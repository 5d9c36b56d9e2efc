//! The calls that append sections, and the section of debug names.

use crate::arguments::{IndexName, Producer, known, list, text};
use crate::session::Session;
use crate::{CallError, Handle, Result, calls, numbers, other};
use wenc::{
    ComponentNameSection, CustomSection, NameMap, ProducersField, ProducersSection,
    RawCustomSection, RawSection,
};

calls! {
    wenc_custom_section(name[name_len]: text, data[data_len]: u8) = |session| {
        add_custom(session, &CustomSection { name: name.into(), data: data.into() })
    };
    wenc_raw_custom_section(bytes: *const u8, len: usize) = |session| {
        // They begin with their size, and may be longer than a size of 32 bits.
        let bytes = list(bytes, len).map_err(|status| CallError::from(status).of(c"bytes"))?;
        match session {
            Session::Building(builder) => Ok(builder.try_raw_custom_section(bytes)?),
            _ => session.append(&RawCustomSection(bytes)).map(drop),
        }
    };
    wenc_raw_section(id: u8, bytes[len]: u8) = |session| {
        session.append(&RawSection { id, data: bytes }).map(drop)
    };
    wenc_producers(producers[producers_len]: Producer) = |session| {
        let section = read_producers(producers)?;
        match session {
            Session::Building(builder) => Ok(builder.try_producers_section(&section)?),
            _ => session.append(&section).map(drop),
        }
    };
    wenc_append_names() = |session| Ok(session.builder()?.try_append_names()?);
    wenc_section(section: *const Handle) = |session| {
        match other(session, section).map_err(|error| error.of(c"section"))? {
            Session::CoreInstances(section) => session.append(section).map(drop),
            Session::CoreTypes(section) => session.append(section).map(drop),
            Session::Instances(section) => session.append(section).map(drop),
            Session::Aliases(section) => session.append(section).map(drop),
            Session::Types(section) => session.append(section).map(drop),
            Session::Functions(section) => session.append(section).map(drop),
            Session::Imports(section) => session.append(section).map(drop),
            Session::Exports(section) => session.append(section).map(drop),
            Session::Names(section) => add_custom(session, &section.as_custom()),
            _ => Err(CallError::bad(c"section")),
        }
    };
    wenc_names_component(name[name_len]: text) = |session| {
        Ok(of_names(session)?.try_component(name)?)
    };
    wenc_names_items(space: u32, names[names_len]: IndexName) = |session| {
        let section = of_names(session)?;
        let space = known(c"space", numbers::space(space))?;
        let mut map = NameMap::new();
        for (member, named) in names.iter().enumerate() {
            let name = text(c"names", named.name, named.name_len);
            map.try_append(named.index, name.map_err(|error| error.at(member))?)?;
        }
        Ok(section.try_names(space, &map)?)
    };
    wenc_names_raw(id: u8, bytes[len]: u8) = |session| Ok(of_names(session)?.try_raw(id, bytes)?);
}

fn add_custom(session: &mut Session, section: &CustomSection<'_>) -> Result<()> {
    match session {
        Session::Building(builder) => Ok(builder.try_custom_section(section)?),
        _ => session.append(section).map(drop),
    }
}

/// Returns the section of debug names that a handle owns.
fn of_names(session: &mut Session) -> Result<&mut ComponentNameSection> {
    match session {
        Session::Names(section) => Ok(section),
        _ => Err(session.wrong_handle()),
    }
}

/// Makes a producers section of these tools. Adjacent tools with the same field share it.
unsafe fn read_producers(producers: &[Producer]) -> Result<ProducersSection> {
    let field_of = |tool: &Producer| unsafe { text(c"producers", tool.field, tool.field_len) };
    let is_same = |tool: &Producer, next: &Producer| field_of(tool).ok() == field_of(next).ok();
    let mut section = ProducersSection::new();
    let mut tools = producers.iter().enumerate();
    for group in producers.chunk_by(is_same) {
        let mut field = ProducersField::new();
        for (member, tool) in tools.by_ref().take(group.len()) {
            let read = unsafe { tool.read() };
            let (_, name, version) = read.map_err(|error| error.at(member))?;
            field.try_value(name, version)?;
        }
        section.try_field(field_of(&group[0])?, &field)?;
    }
    Ok(section)
}

impl Producer {
    /// Returns the field, the tool and its version.
    unsafe fn read<'a>(&self) -> Result<(&'a str, &'a str, &'a str)> {
        let text = |at, len| unsafe { text(c"producers", at, len) };
        Ok((
            text(self.field, self.field_len)?,
            text(self.tool, self.tool_len)?,
            text(self.version, self.version_len)?,
        ))
    }
}

//! The lines of a component's WIT, with the items that they come from.

use std::collections::HashMap;
use wenc::scope::Scope;

/// What is open where a line is.
enum Open {
    World,
    Package(String),
    Interface(String),
    /// A resource, with the interface that it is in.
    Resource(String, String),
    /// Another type, whose lines come from the same item.
    Type(usize),
}

/// The byte offsets of what a component imports and exports, and of what its instances export.
pub struct Places(HashMap<String, usize>);

impl Places {
    /// `None` if memory runs out.
    pub fn new(root: Scope) -> Option<Self> {
        let mut all = HashMap::new();
        let mut add = |key: String, place| {
            all.try_reserve(1).ok()?;
            all.insert(key, place);
            Some(())
        };
        for of in root.definitions() {
            let Some(name) = of.name() else { continue };
            add(name.to_owned(), of.place())?;
            // an interface that is imported, too, is written as it is exported
            let exports = of.exports().ok().flatten();
            for member in exports.iter().flat_map(|exports| exports.definitions()) {
                if let Some(inner) = member.name() {
                    add(format!("{name}#{inner}"), member.place())?;
                }
            }
        }
        Some(Self(all))
    }

    /// Returns the byte offset of a name, in an interface or in the world.
    fn of(&self, around: Option<&Open>, name: &str) -> usize {
        let name = name.trim_start_matches('%');
        let key = match around {
            Some(Open::Interface(interface)) => format!("{interface}#{name}"),
            Some(Open::Resource(interface, resource)) if name == "constructor" => {
                format!("{interface}#[constructor]{resource}")
            }
            Some(Open::Resource(interface, resource)) => {
                let key = |kind| format!("{interface}#[{kind}]{resource}.{name}");
                let found = self.0.get(&key("static")).or_else(|| self.0.get(&key("method")));
                return found.copied().unwrap_or(0);
            }
            _ => name.to_owned(),
        };
        self.0.get(&key).copied().unwrap_or(0)
    }

    /// Calls a function with each line and the byte offset of its item, or 0.
    pub fn each_line<E>(
        &self,
        text: &str,
        mut visit: impl FnMut(&str, usize) -> Result<(), E>,
    ) -> Result<(), E> {
        let mut open = Vec::new();
        text.lines().try_for_each(|line| visit(line, self.line(line.trim(), &mut open)))
    }

    /// Returns the byte offset of a line's item, and opens or closes what it opens or closes.
    fn line(&self, line: &str, open: &mut Vec<Open>) -> usize {
        if line == "}" {
            open.pop();
            return 0;
        }
        if let Some(Open::Type(place)) = open.last() {
            return *place;
        }
        let around = open.last();
        let (name, opened) = self.named(line, around);
        let is_whole = line.starts_with("interface ");
        let place = self.of(if is_whole { None } else { around }, &name);
        if line.ends_with('{') {
            open.push(opened);
        }
        place
    }

    /// Returns the name that a line is of, or nothing, and what it opens if it does.
    fn named(&self, line: &str, around: Option<&Open>) -> (String, Open) {
        let (first, rest) = line.split_once(' ').unwrap_or((line, ""));
        match (first, around) {
            ("package", _) => {
                (String::new(), Open::Package(rest.trim_end_matches(" {").to_owned()))
            }
            ("world", _) => (String::new(), Open::World),
            ("interface", Some(Open::Package(package))) => {
                let (package, version) = package.split_once('@').unwrap_or((package, ""));
                let at = if version.is_empty() { "" } else { "@" };
                let name = format!("{package}/{}{at}{version}", word(rest));
                (name.clone(), Open::Interface(name))
            }
            ("import" | "export", _) => {
                let name = rest.trim_end_matches(';').split(": ").next().unwrap_or("").to_owned();
                (name.clone(), Open::Interface(name))
            }
            ("resource", Some(Open::Interface(interface))) => {
                let resource = word(rest);
                (resource.clone(), Open::Resource(interface.clone(), resource))
            }
            ("use", _) => {
                let names = rest.split_once('{').map_or("", |(_, names)| names);
                let name = names.split([',', '}']).next().unwrap_or("");
                (word(name.rsplit(' ').next().unwrap_or("")), Open::World)
            }
            ("type" | "record" | "variant" | "enum" | "flags" | "resource", _) => {
                let name = word(rest);
                let place = self.of(around, &name);
                (name, Open::Type(place))
            }
            _ => (word(line), Open::World),
        }
    }
}

/// Returns the letters of a name at the start of a text.
fn word(text: &str) -> String {
    let is_name = |letter: char| letter.is_alphanumeric() || "-%".contains(letter);
    text.split(|letter| !is_name(letter)).next().unwrap_or("").to_owned()
}

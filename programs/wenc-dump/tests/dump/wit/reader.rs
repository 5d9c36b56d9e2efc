//! Reads WIT, as far as the tests need it.

use std::collections::{BTreeMap, BTreeSet};

/// What an interface or a world has, by name, as words.
pub type Items = BTreeMap<String, Vec<String>>;

/// A world, with all interfaces by their whole names.
#[derive(Debug, Default, PartialEq)]
pub struct World {
    /// The interfaces that it imports and exports.
    pub imports: BTreeSet<String>,
    pub exports: BTreeSet<String>,
    /// Its other items. The name of an export follows a space.
    pub items: Items,
    pub interfaces: BTreeMap<String, Items>,
}

/// Whether the letter is one of a word: of a name, a number or a version.
fn is_letter(letter: char) -> bool {
    letter.is_alphanumeric() || "-_".contains(letter)
}

/// Splits a text into words and signs. The name of an interface is one word.
fn words(text: &str) -> Vec<String> {
    let mut words: Vec<String> = Vec::new();
    for line in text.lines() {
        let line = line.split("//").next().unwrap_or_default().replace('%', "");
        let mut rest = line.trim();
        while let Some(first) = rest.chars().next() {
            let mut len = rest.find(|letter| !is_letter(letter)).unwrap_or(rest.len());
            // `a:b/c@1.0.0`
            while len > 0 && rest[len..].starts_with([':', '/', '@']) {
                let is_version = rest[len..].starts_with('@');
                let more = rest[len + 1..]
                    .find(|letter| !(is_letter(letter) || is_version && ".+".contains(letter)));
                match more.unwrap_or(rest.len() - len - 1) {
                    0 => break,
                    more => len += 1 + more,
                }
            }
            if rest[..len].ends_with('.') {
                len -= 1;
            }
            if len == 0 {
                len = if rest.starts_with("->") { 2 } else { first.len_utf8() };
            }
            words.push(rest[..len].to_owned());
            rest = rest[len..].trim_start();
        }
    }
    words
}

/// Leaves the last word out if it is this one.
fn pop(words: &mut Vec<String>, word: &str) {
    if words.last().is_some_and(|last| last == word) {
        words.pop();
    }
}

/// Splits words into items, without annotations and what is unstable. `,` in front of `}` is left
/// out.
fn items(words: &[String]) -> Vec<Vec<String>> {
    let (mut items, mut item, mut depth, mut at) = (Vec::new(), Vec::<String>::new(), 0, 0);
    let mut is_unstable = false;
    while let Some(word) = words.get(at) {
        at += 1;
        if word == "@" && depth == 0 {
            is_unstable |= words[at] == "unstable";
            at += words[at..].iter().position(|word| word == ")").expect("a `)`") + 1;
            continue;
        }
        match word.as_str() {
            "{" => depth += 1,
            "}" => {
                depth -= 1;
                pop(&mut item, ",");
            }
            _ => {}
        }
        item.push(word.clone());
        let is_end = word == "}" && words.get(at).is_none_or(|next| next != ";");
        if depth == 0 && (word == ";" || is_end) {
            pop(&mut item, ";");
            let item = std::mem::take(&mut item);
            if !std::mem::take(&mut is_unstable) {
                items.push(item);
            }
        }
    }
    assert!(item.is_empty(), "{item:?}");
    items
}

/// The words between the first `{` and the last `}`.
fn body(item: &[String]) -> &[String] {
    let from = item.iter().position(|word| word == "{").expect("a `{`");
    &item[from + 1..item.len() - 1]
}

/// The whole name of an interface or a world, which may be one of this package.
fn whole(name: &str, package: &str) -> String {
    if name.contains(':') {
        return name.to_owned();
    }
    let (package, version) = package.split_at(package.find('@').unwrap_or(package.len()));
    format!("{package}/{name}{version}")
}

/// Adds an item of an interface by the names that it defines, with those of a resource.
fn add(all: &mut Items, item: &[String], package: &str) {
    let insert = |all: &mut Items, name: &str, item: Vec<String>| {
        assert!(all.insert(name.to_owned(), item).is_none(), "{name} twice");
    };
    match item[0].as_str() {
        "use" => {
            let from = whole(&item[1], package);
            for used in body(item).split(|word| word == ",") {
                let name = used.last().expect("a name");
                insert(all, name, vec!["use".into(), from.clone(), used[0].clone()]);
            }
        }
        "resource" => {
            insert(all, &item[1], item[..2].to_vec());
            let functions = if item.len() > 2 { items(body(item)) } else { Vec::new() };
            for function in functions {
                let name = match (function[0].as_str(), function[2].as_str()) {
                    ("constructor", _) => format!("[constructor]{}", item[1]),
                    (name, "static") => format!("[static]{}.{name}", item[1]),
                    (name, _) => format!("[method]{}.{name}", item[1]),
                };
                insert(all, &name, function);
            }
        }
        "type" | "record" | "variant" | "enum" | "flags" if item[1] != ":" => {
            insert(all, &item[1], item.to_vec());
        }
        name => insert(all, name, item.to_vec()),
    }
}

/// What was read of a file.
#[derive(Default)]
struct File {
    interfaces: BTreeMap<String, Items>,
    /// The items of worlds, with their packages.
    worlds: BTreeMap<String, (String, Vec<Vec<String>>)>,
}

impl File {
    fn add(&mut self, words: &[String], mut package: String) -> String {
        for item in items(words) {
            match item[0].as_str() {
                "package" if item.len() == 2 => package = item[1].clone(),
                "package" => _ = self.add(body(&item), item[1].clone()),
                "interface" => {
                    let mut all = Items::new();
                    items(body(&item)).iter().for_each(|item| add(&mut all, item, &package));
                    self.interfaces.insert(whole(&item[1], &package), all);
                }
                "world" => {
                    let all = (package.clone(), items(body(&item)));
                    self.worlds.insert(whole(&item[1], &package), all);
                }
                _ => panic!("{item:?}"),
            }
        }
        package
    }

    /// Adds the items of a world, with these other names.
    fn fill(&self, world: &mut World, name: &str, names: &BTreeMap<&str, &str>) {
        let (package, items_of) = &self.worlds[name];
        for item in items_of {
            match item[0].as_str() {
                "include" => {
                    let names = if item.len() > 2 { body(item) } else { &[] };
                    let pairs = names.split(|word| word == ",").filter(|pair| pair.len() == 3);
                    let names = pairs.map(|pair| (pair[0].as_str(), pair[2].as_str())).collect();
                    self.fill(world, &whole(&item[1], package), &names);
                }
                "import" if item.len() == 2 => _ = world.imports.insert(whole(&item[1], package)),
                "export" if item.len() == 2 => _ = world.exports.insert(whole(&item[1], package)),
                way @ ("import" | "export") => {
                    let name = names.get(item[1].as_str()).map_or(&*item[1], |name| *name);
                    let mut item = item.clone();
                    item[1] = name.to_owned();
                    if item[3] == "interface" {
                        let mut all = Items::new();
                        items(body(&item)).iter().for_each(|item| add(&mut all, item, package));
                        item.splice(4.., [format!("{all:?}")]);
                    }
                    let lead = if way == "export" { " " } else { "" };
                    world.items.insert(format!("{lead}{name}"), item);
                }
                _ => add(&mut world.items, item, package),
            }
        }
    }
}

/// The interfaces from which an interface or a world uses types.
fn used(items: &Items) -> impl Iterator<Item = &String> {
    items.values().filter(|item| item[0] == "use" && item.len() == 3).map(|item| &item[1])
}

/// Reads a text. Returns the only world of its own package, with all interfaces that it imports
/// because another one uses their types.
pub fn read(text: &str) -> World {
    let (mut file, mut world) = (File::default(), World::default());
    let package = file.add(&words(text), String::new());
    let mut own = file.worlds.iter().filter(|(_, (of, _))| *of == package);
    let (name, _) = own.next().expect("a world");
    assert!(own.next().is_none(), "one world");
    file.fill(&mut world, name, &BTreeMap::new());
    let mut more: Vec<&String> = used(&world.items).collect();
    let interface = |name| file.interfaces.get(name).unwrap_or_else(|| panic!("no {name}: {text}"));
    for name in world.imports.iter().chain(&world.exports) {
        more.extend(used(interface(name)));
    }
    let mut imports = world.imports.clone();
    while let Some(name) = more.pop() {
        if !world.exports.contains(name) && imports.insert(name.clone()) {
            more.extend(used(interface(name)));
        }
    }
    world.imports = imports;
    world.interfaces = file.interfaces;
    world
}

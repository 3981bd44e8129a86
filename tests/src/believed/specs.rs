//! A file of definitions, read as far as it takes to say which names each definition uses.

use super::imports::{import, Import};
use super::words::{without_comment, words};

#[derive(Clone, Copy, Debug, PartialEq)]
pub enum Kind {
    /// A type or a function whose text counts wherever its name stands: `abbrev`, `unfoldable`.
    Open,
    Record,
    Data,
    /// A theorem, or a function that stays shut.
    Shut,
}

/// A piece of a definition with binders of its own: its type, a clause, a field, a constructor.
#[derive(Debug)]
pub struct Part {
    pub head: String,
    pub words: Vec<String>,
    /// A clause: what stands before its `=` is a pattern.
    pub clause: bool,
}

#[derive(Debug)]
pub struct Definition {
    pub name: String,
    pub kind: Kind,
    /// The words before `where`, or the type.
    pub stated: Vec<String>,
    pub parts: Vec<Part>,
    /// What stands around it: the parameters of its `module _`, and the fields that are opened there with their record.
    pub around: Vec<String>,
    pub opened: Vec<(String, String)>,
}

#[derive(Debug, Default)]
pub struct Spec {
    pub imports: Vec<Import>,
    pub definitions: Vec<Definition>,
    /// Lines that were not understood.
    pub unread: Vec<String>,
}

/// A line that begins at the indentation of what is read, with the deeper lines below it.
struct Item {
    first: String,
    below: Vec<String>,
}

pub fn read(text: &str) -> Spec {
    let lines: Vec<String> = text
        .lines()
        .map(|line| without_comment(line).trim_end().to_string())
        .filter(|line| !line.is_empty())
        .collect();
    let mut spec = Spec::default();
    read_items(&lines, &[], &[], &mut spec);
    spec
}

fn read_items(lines: &[String], around: &[String], opened: &[(String, String)], spec: &mut Spec) {
    let mut opened = opened.to_vec();
    for item in items(lines) {
        let all = words(&item.first);
        match all[0].as_str() {
            "use" => spec.imports.extend(import(&item.whole())),
            "unfolding" => {}
            "module" if all[1] == "_" => {
                let (head, below) = item.at_where();
                let around = [around, &head[2..]].concat();
                read_items(below, &around, &opened, spec);
            }
            "open" => {
                let names = all.iter().skip_while(|word| *word != "using").skip(1);
                let names = names.filter(|word| !["(", ")", ","].contains(&word.as_str()));
                opened.extend(names.map(|name| (name.clone(), all[1].clone())));
            }
            _ => read_definition(&item, &all, around, &opened, spec),
        }
    }
}

fn read_definition(
    item: &Item,
    all: &[String],
    around: &[String],
    opened: &[(String, String)],
    spec: &mut Spec,
) {
    let marks =
        all.iter().take_while(|word| ["abbrev", "unfoldable", "pub"].contains(&word.as_str()));
    let marked = marks.count();
    let kept_open = all[..marked].iter().any(|word| word != "pub");
    let (kind, at) = match all[marked].as_str() {
        "record" => (Kind::Record, marked + 1),
        "data" => (Kind::Data, marked + 1),
        _ if kept_open => (Kind::Open, marked),
        _ => (Kind::Shut, marked),
    };
    let name = all[at].clone();
    let definition = |stated: Vec<String>, parts: Vec<Part>| Definition {
        name: name.clone(),
        kind,
        stated,
        parts,
        around: around.to_vec(),
        opened: opened.to_vec(),
    };
    if kind == Kind::Record || kind == Kind::Data {
        let (head, below) = item.at_where();
        let parts = items(below).iter().map(field).collect();
        spec.definitions.push(definition(head[at + 1..].to_vec(), parts));
    } else if all.get(at + 1).map_or(false, |word| word == ":") {
        let whole = words(&item.whole());
        spec.definitions.push(definition(whole[at + 2..].to_vec(), Vec::new()));
    } else {
        match spec.definitions.iter_mut().rev().find(|definition| definition.name == name) {
            Some(definition) => definition.parts.extend(clause(item)),
            None => spec.unread.push(item.first.clone()),
        }
    }
}

/// `pub name : type`, of a record or of a data type.
fn field(item: &Item) -> Part {
    let mut all = words(&item.whole());
    all.retain(|word| word != "pub");
    Part { head: all[0].clone(), words: all[2..].to_vec(), clause: false }
}

/// A clause, and what stands below its `where` as pieces of their own.
fn clause(item: &Item) -> Vec<Part> {
    let where_at = item.below.iter().position(|line| line.trim() == "where");
    let own = &item.below[..where_at.unwrap_or(item.below.len())];
    let first = Item { first: item.first.clone(), below: own.to_vec() };
    let all = words(&first.whole());
    let mut parts = vec![Part { head: all[0].clone(), words: all[1..].to_vec(), clause: true }];
    if let Some(at) = where_at {
        for inner in items(&item.below[at + 1..]) {
            let head = words(&inner.first);
            if head.get(1).map_or(false, |word| word == ":") {
                let all = words(&inner.whole());
                parts.push(Part { head: head[0].clone(), words: all[2..].to_vec(), clause: false });
            } else {
                parts.extend(clause(&inner));
            }
        }
    }
    parts
}

impl Item {
    /// The words up to the `where` that ends a line, and the lines below it.
    fn at_where(&self) -> (Vec<String>, &[String]) {
        let ends = |line: &String| line.ends_with(" where");
        let more = if ends(&self.first) {
            0
        } else {
            self.below.iter().position(ends).map_or(0, |at| at + 1)
        };
        let mut head = words(&[&[self.first.clone()], &self.below[..more]].concat().join("\n"));
        head.pop();
        (head, &self.below[more..])
    }

    fn whole(&self) -> String {
        [&[self.first.clone()], &self.below[..]].concat().join("\n")
    }
}

fn indent(line: &str) -> usize {
    line.len() - line.trim_start().len()
}

/// The lines at the indentation of the first, each with the deeper ones below it. A closing bracket belongs to what it closes.
fn items(lines: &[String]) -> Vec<Item> {
    let mut list: Vec<Item> = Vec::new();
    let outer = lines.first().map_or(0, |line| indent(line));
    for line in lines {
        let closes = line.trim_start().starts_with(&['}', ')'][..]);
        match list.last_mut() {
            Some(item) if indent(line) > outer || closes => item.below.push(line.clone()),
            _ => list.push(Item { first: line.clone(), below: Vec::new() }),
        }
    }
    list
}

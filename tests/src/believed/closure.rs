//! Which definitions a statement rests on: the names in its text, the names in theirs, and so on.

use super::code::Source;
use super::files::{is_ours, source_of, Files, Id, Told};
use super::specs::{Definition, Kind};
use super::words::{bound, pattern, used};
use std::collections::BTreeSet;

/// Functions that a law tells whole: file and name of each, file and name of the law. A reader reads the law's statement: the text of
/// such a function is a decision put together of proofs.
const TOLD_BY_A_LAW: [[&str; 4]; 1] = [[
    "crates/table/specs/Read.antt",
    "reading",
    "crates/table/specs/ReadLaws.antt",
    "says_reading",
]];

#[derive(Default)]
pub struct Closure {
    files: Files,
    pub reached: BTreeSet<Id>,
    to_do: Vec<Id>,
}

impl Closure {
    /// With the files of the laws that tell a function whole.
    pub fn begin() -> Told<Closure> {
        let mut closure = Closure::default();
        for [_, _, laws, _] in TOLD_BY_A_LAW {
            closure.files.load(laws)?;
        }
        Ok(closure)
    }

    /// What a page states: its records whole, of a theorem what it says and not its proof.
    pub fn add_page(&mut self, file: &str) -> Told<()> {
        self.files.load(file)?;
        for definition in &self.files.spec(file)?.definitions {
            if definition.kind == Kind::Shut {
                self.to_do.extend(self.names_in(file, definition, false)?);
            } else {
                self.to_do.push((file.to_string(), definition.name.clone()));
            }
        }
        self.follow()
    }

    /// What the contracts of a source file say, and the structs that its functions take and answer.
    pub fn add_contracts(&mut self, file: &str, wanted: &dyn Fn(&str) -> bool) -> Told<()> {
        self.files.load(file)?;
        let source = self.files.source(file)?;
        for function in source.functions.iter().filter(|function| wanted(&function.name)) {
            let mut hidden = bound(&function.contract, &|_| false);
            hidden.extend(function.parameters.iter().cloned());
            for word in used(&function.contract, &hidden) {
                self.to_do.extend(self.files.brought(&source.imports, &word)?);
            }
            self.to_do.extend(structs(file, source, &function.types));
        }
        self.follow()
    }

    /// The functions of our crates that a source file calls, with the file of each.
    pub fn calls(&mut self, file: &str) -> Told<BTreeSet<Id>> {
        self.files.load(file)?;
        let source = self.files.source(file)?;
        let whole = source.calls.iter().filter_map(|call| whole_path(source, call));
        Ok(whole.filter(|path| is_ours(&path[0])).map(|path| source_of(path)).collect())
    }

    fn follow(&mut self) -> Told<()> {
        while let Some(id) = self.to_do.pop() {
            if self.reached.insert(id.clone()) {
                self.files.load(&id.0)?;
                self.to_do.extend(self.names_of(&id)?);
            }
        }
        Ok(())
    }

    fn names_of(&self, id: &Id) -> Told<Vec<Id>> {
        let (file, name) = id;
        if file.ends_with(".rt") {
            let source = self.files.source(file)?;
            let found = source.structs.iter().find(|found| found.name == *name);
            let found = found.ok_or(format!("{} has no struct {}", file, name))?;
            return Ok(structs(file, source, &found.types));
        }
        match TOLD_BY_A_LAW.iter().find(|told| told[0] == file && told[1] == name) {
            Some([_, _, laws, law]) => {
                let law = self.files.definition(&(laws.to_string(), law.to_string()))?;
                self.names_in(laws, law, false)
            }
            None => self.names_in(file, self.files.definition(id)?, true),
        }
    }

    /// The definitions that the text of one names; without its body, those that its type names.
    fn names_in(&self, file: &str, definition: &Definition, with_body: bool) -> Told<Vec<Id>> {
        let constructor = |word: &str| self.files.is_constructor(file, word);
        let mut hidden = bound(&definition.around, &constructor);
        let mut found = used(&definition.around, &hidden);
        let in_type = bound(&definition.stated, &constructor);
        found.extend(used(&definition.stated, &(&hidden | &in_type)));
        if definition.kind == Kind::Record || definition.kind == Kind::Data {
            hidden.extend(in_type);
        } else {
            let local = definition.parts.iter().map(|part| part.head.clone());
            hidden.extend(local.filter(|head| *head != definition.name));
        }
        for part in definition.parts.iter().filter(|_| with_body) {
            let mut own = bound(&part.words, &constructor);
            if part.clause {
                own.extend(pattern(&part.words, "=", &constructor));
            }
            found.extend(used(&part.words, &(&hidden | &own)));
            // A field is known to the fields below it, and not to its own type.
            if definition.kind == Kind::Record {
                hidden.insert(part.head.clone());
            }
        }
        let mut ids = Vec::new();
        for word in &found {
            let opened = definition.opened.iter().find(|(name, _)| name == word);
            ids.extend(self.files.named(file, opened.map_or(word, |(_, record)| record))?);
        }
        Ok(ids)
    }
}

/// The path of what a source file names by a path or by the last word of one that it uses.
fn whole_path<'a>(source: &'a Source, path: &'a Vec<String>) -> Option<&'a Vec<String>> {
    if path.len() > 1 {
        Some(path)
    } else {
        source.uses.iter().find(|used| used.last() == path.last())
    }
}

/// The structs of our crates among the types that a source file names.
fn structs(file: &str, source: &Source, types: &[Vec<String>]) -> Vec<Id> {
    let of_crate = file.split('/').nth(1).unwrap_or("").to_string();
    let named = |path: &Vec<String>| match whole_path(source, path) {
        Some(whole) if whole[0] == "crate" => {
            Some(source_of(&[&[of_crate.clone()], &whole[1..]].concat()))
        }
        Some(whole) if is_ours(&whole[0]) => Some(source_of(whole)),
        None if source.structs.iter().any(|own| own.name == path[0]) => {
            Some((file.to_string(), path[0].clone()))
        }
        _ => None,
    };
    types.iter().filter_map(named).collect()
}

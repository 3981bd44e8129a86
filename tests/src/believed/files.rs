//! The files of the crates as they are asked for, and where a name of theirs is defined.

use super::code::{self, Source};
use super::imports::{Import, Module};
use super::specs::{self, Definition, Kind, Spec};
use super::words::whole;
use std::collections::BTreeMap;
use std::fs;
use std::path::Path;

/// A definition by its file and its name.
pub type Id = (String, String);

/// Nothing is passed over: what is not found or not understood is told.
pub type Told<T> = Result<T, String>;

#[derive(Default)]
pub struct Files {
    specs: BTreeMap<String, Spec>,
    sources: BTreeMap<String, Source>,
}

impl Files {
    pub fn spec(&self, file: &str) -> Told<&Spec> {
        self.specs.get(file).ok_or(format!("{} was not read", file))
    }

    pub fn source(&self, file: &str) -> Told<&Source> {
        self.sources.get(file).ok_or(format!("{} was not read", file))
    }

    /// Reads a file and all that it imports from, and so on.
    pub fn load(&mut self, file: &str) -> Told<()> {
        if self.specs.contains_key(file) || self.sources.contains_key(file) {
            return Ok(());
        }
        let text = fs::read_to_string(file).map_err(|why| format!("{}: {}", file, why))?;
        let modules: Vec<Module>;
        if file.ends_with(".rt") {
            let source = code::read(&text);
            modules = source.imports.iter().map(|import| import.module.clone()).collect();
            self.sources.insert(file.to_string(), source);
        } else {
            let spec = specs::read(&text);
            if let Some(line) = spec.unread.first() {
                return Err(format!("{}: not understood: {}", file, line));
            }
            modules = spec.imports.iter().map(|import| import.module.clone()).collect();
            self.specs.insert(file.to_string(), spec);
        }
        let ours = modules.iter().filter(|module| is_ours(&module.of_crate));
        ours.into_iter().try_for_each(|module| self.load(&file_of(module)))
    }

    pub fn definition(&self, (file, name): &Id) -> Told<&Definition> {
        defined(self.spec(file)?, name).ok_or(format!("{} has no {}", file, name))
    }

    /// What a word of a file of definitions names: a definition there, or one that is imported. Nothing where it is the kit's.
    pub fn named(&self, file: &str, word: &str) -> Told<Option<Id>> {
        let spec = self.spec(file)?;
        match defined(spec, whole(word)) {
            Some(definition) => Ok(Some((file.to_string(), definition.name.clone()))),
            None => self.brought(&spec.imports, word),
        }
    }

    /// What a word names by the imports of a file.
    pub fn brought(&self, imports: &[Import], word: &str) -> Told<Option<Id>> {
        let (module, name) = match imported(imports, word) {
            Some((module, name)) if is_ours(&module.of_crate) => (module, name),
            _ => return Ok(None),
        };
        let file = file_of(module);
        if module.is_declared() {
            return Ok(Some((file, module.path[module.path.len() - 1].clone())));
        }
        let definition = self.definition(&(file.clone(), name))?;
        Ok(Some((file, definition.name.clone())))
    }

    /// Whether a word in a pattern is a constructor of ours.
    pub fn is_constructor(&self, file: &str, word: &str) -> bool {
        let variant = |spec: &Spec| {
            imported(&spec.imports, word).map_or(false, |found| found.0.is_declared())
        };
        match self.named(file, word) {
            Ok(Some(id)) if id.0.ends_with(".rt") => self.spec(file).map_or(false, variant),
            Ok(Some(id)) => {
                self.definition(&id).map_or(false, |found| found.kind == Kind::Data && id.1 != word)
            }
            _ => false,
        }
    }
}

pub fn is_ours(of_crate: &str) -> bool {
    Path::new("crates").join(of_crate).is_dir()
}

/// What the compiler declares from a struct stands where the struct does.
fn file_of(module: &Module) -> String {
    if module.is_declared() {
        let path = [&[module.of_crate.clone()], &module.path[1..]].concat();
        return source_of(&path).0;
    }
    format!("crates/{}/specs/{}.antt", module.of_crate, module.path.join("/"))
}

/// `a::b::C` stands in crates/a/src/b.rt, `a::C` in crates/a/src/lib.rt.
pub fn source_of(path: &[String]) -> Id {
    let (name, modules) = (&path[path.len() - 1], &path[1..path.len() - 1]);
    let file = if modules.is_empty() { "lib".to_string() } else { modules.join("/") };
    (format!("crates/{}/src/{}.rt", path[0], file), name.clone())
}

/// The definition of a name: its own, or the data type of which it is a constructor.
fn defined<'a>(spec: &'a Spec, name: &str) -> Option<&'a Definition> {
    let own = spec.definitions.iter().find(|definition| definition.name == name);
    let constructs = |definition: &&Definition| {
        definition.kind == Kind::Data && definition.parts.iter().any(|part| part.head == name)
    };
    own.or_else(|| spec.definitions.iter().find(constructs))
}

/// The module that a word comes from and its name there.
fn imported<'a>(imports: &'a [Import], word: &str) -> Option<(&'a Module, String)> {
    imports.iter().find_map(|import| {
        let by_name =
            import.names.iter().find(|(_, here)| here == whole(word)).map(|name| name.0.clone());
        let of_module =
            |module: &String| Some(word.strip_prefix(module)?.strip_prefix('.')?.to_string());
        let name = by_name.or_else(|| import.whole.as_ref().and_then(of_module))?;
        Some((&import.module, name))
    })
}

//! What a file brings in: the names of its `use` lines, as far as they come from crates that Rattle proves.

/// Where a name comes from: a module of one of our crates, by the words of its path behind `specs`.
#[derive(Clone, Debug, PartialEq)]
pub struct Module {
    pub of_crate: String,
    pub path: Vec<String>,
}

/// `use Rattle.a.specs.B.{x, y as z}` brings names, `use Rattle.a.specs.B as c` a name for the module.
#[derive(Debug)]
pub struct Import {
    pub module: Module,
    pub names: Vec<(String, String)>,
    pub whole: Option<String>,
}

/// Nothing where the module is not one of ours.
pub fn import(text: &str) -> Option<Import> {
    let text = text.trim_start_matches("pub ").trim_start_matches("use ").trim_end_matches(';');
    let (path, names) = match text.split_once(".{") {
        Some((path, names)) => (path, names.trim_end().trim_end_matches('}')),
        None => (text, ""),
    };
    let (path, whole) = match path.split_once(" as ") {
        Some((path, whole)) => (path, Some(whole.trim().to_string())),
        None => (path, None),
    };
    let module = module_of(path.trim())?;
    let named = |name: &str| match name.split_once(" as ") {
        Some((name, here)) => (name.trim().to_string(), here.trim().to_string()),
        None => (name.trim().to_string(), name.trim().to_string()),
    };
    let names = names.split(',').filter(|name| !name.trim().is_empty()).map(named).collect();
    Some(Import { module, names, whole })
}

/// `Rattle.a.specs.B`
fn module_of(path: &str) -> Option<Module> {
    let (of_crate, rest) = path.strip_prefix("Rattle.")?.split_once('.')?;
    let path = rest.strip_prefix("specs.")?.trim_end_matches(".TheVariants");
    let path = path.split('.').map(String::from).collect();
    Some(Module { of_crate: of_crate.to_string(), path })
}

impl Module {
    /// Made by the compiler from a struct or an enum: the last word of its path is that.
    pub fn is_declared(&self) -> bool {
        self.path[0] == "declared"
    }
}

/// The imports of a source file: its lines `ghost use`.
pub fn ghost_imports(text: &str) -> Vec<Import> {
    text.lines().filter_map(|line| import(line.strip_prefix("ghost ")?)).collect()
}

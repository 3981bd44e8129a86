//! A source file, read as far as it takes to say what its contracts and structs rest on.

use super::imports::{ghost_imports, Import};
use super::words::words;

/// A function with what its contract says; `types` are the structs that its signature names, by path.
pub struct Function {
    pub name: String,
    pub parameters: Vec<String>,
    pub contract: Vec<String>,
    pub types: Vec<Vec<String>>,
}

/// A struct or an enum, and the structs that it holds.
pub struct Struct {
    pub name: String,
    pub types: Vec<Vec<String>>,
}

pub struct Source {
    pub imports: Vec<Import>,
    /// The paths of its `use` lines.
    pub uses: Vec<Vec<String>>,
    pub functions: Vec<Function>,
    pub structs: Vec<Struct>,
    /// The paths of all that it calls.
    pub calls: Vec<Vec<String>>,
}

pub fn read(text: &str) -> Source {
    let lines: Vec<&str> = text.lines().map(code).filter(|line| !line.trim().is_empty()).collect();
    let mut source = Source {
        imports: ghost_imports(text),
        uses: lines.iter().filter_map(|line| used(line)).collect(),
        functions: Vec::new(),
        structs: Vec::new(),
        calls: Vec::new(),
    };
    for (at, line) in lines.iter().enumerate() {
        if let Some(name) = declared(line, &["fn"]) {
            source.functions.push(function(name, &lines[at..]));
        } else if let Some(name) = declared(line, &["struct", "enum"]) {
            let end =
                lines[at..].iter().position(|line| line.starts_with('}') || line.ends_with(';'));
            let held = lines[at..=at + end.unwrap_or(0)].join("\n");
            let body = held.split_once(&['{', '('][..]).map_or("", |parts| parts.1);
            source.structs.push(Struct { name, types: types(body) });
        } else {
            source.calls.extend(called(line));
        }
    }
    source
}

fn code(line: &str) -> &str {
    line.split("//").next().unwrap_or("")
}

/// `use a::b::C;`
fn used(line: &str) -> Option<Vec<String>> {
    Some(path(line.trim_start_matches("pub ").strip_prefix("use ")?.trim_end_matches(';')))
}

fn path(text: &str) -> Vec<String> {
    text.trim().split("::").map(String::from).collect()
}

/// The name after one of these words, where the line declares something.
fn declared(line: &str, kinds: &[&str]) -> Option<String> {
    let all: Vec<&str> = line.split_whitespace().collect();
    let at = all.iter().position(|word| kinds.contains(word))?;
    let before = ["pub", "extern", "\"C\""];
    if !all[..at].iter().all(|word| before.contains(word)) {
        return None;
    }
    let name: String =
        all.get(at + 1)?.chars().take_while(|c| c.is_alphanumeric() || *c == '_').collect();
    Some(name)
}

/// From the line of its name to the one that opens its body: the signature, then the clauses of its contract.
fn function(name: String, lines: &[&str]) -> Function {
    let signed = lines.iter().position(|line| line.contains('{')).unwrap_or(0);
    let signature = lines[..signed].join(" ") + lines[signed].split('{').next().unwrap_or("");
    let clauses = lines[signed..].iter().take_while(|line| line.trim() != "{");
    let contract: Vec<&str> = clauses.map(|line| said(line).unwrap_or(line)).collect();
    let parameters = signature.split(&['(', ','][..]).filter_map(|part| part.split_once(':'));
    Function {
        name,
        parameters: parameters.map(|(name, _)| name.trim().to_string()).collect(),
        contract: said(lines[signed]).map_or(Vec::new(), |_| words(&contract.join("\n"))),
        types: types(&signature),
    }
}

/// Of a line that begins a clause, as `ensures name { .. }`, what stands behind the clause's name.
fn said(line: &str) -> Option<&str> {
    let (head, rest) = line.split_once('{')?;
    let kind = head.split_whitespace().next()?.trim_end_matches('*');
    if ["requires", "ensures"].contains(&kind) {
        Some(rest)
    } else {
        None
    }
}

fn paths(text: &str) -> impl Iterator<Item = &str> {
    text.split(|c: char| !c.is_alphanumeric() && c != '_' && c != ':')
        .map(|word| word.trim_matches(':'))
        .filter(|word| !word.is_empty())
}

/// The paths that end in a type's name.
fn types(text: &str) -> Vec<Vec<String>> {
    let capital =
        |path: &Vec<String>| path.last().map_or(false, |name| name.starts_with(char::is_uppercase));
    let bare = text.replace("\"C\"", "");
    let found: Vec<Vec<String>> = paths(&bare).map(path).filter(capital).collect();
    found
}

/// The paths before an opening bracket.
fn called(line: &str) -> Vec<Vec<String>> {
    line.match_indices('(').filter_map(|(at, _)| paths(&line[..at]).last().map(path)).collect()
}

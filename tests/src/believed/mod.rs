//! What a reader believes: the definitions that the contracts of the calls and of the printing program, and the page of promises,
//! rest on, against the list of docs/PROMISES.md.

mod closure;
mod code;
mod files;
mod imports;
mod lists;
mod specs;
mod words;

use closure::Closure;
use files::Told;
use lists::listed;
use std::collections::{BTreeMap, BTreeSet};
use std::fs;

const PAGE: &str = "crates/promises/specs/Promises.antt";
const CONTRACTS: [&str; 2] = ["crates/host/src", "crates/print_table/src"];
const LIST: &str = "A reviewer's hour";

/// The definitions by file, and the files whose contracts were read.
struct Found {
    names: BTreeMap<String, Vec<String>>,
    contracts: BTreeSet<String>,
}

/// Prints what is wrong with the list, or the definitions of each file; true if the list is right.
pub fn run(names: bool) -> bool {
    match found().and_then(|found| if names { told(&found) } else { compared(&found) }) {
        Ok(right) => right,
        Err(why) => {
            println!("failed  {}", why);
            false
        }
    }
}

fn found() -> Told<Found> {
    let mut closure = Closure::begin()?;
    let mut contracts = BTreeSet::new();
    for folder in CONTRACTS {
        for file in sources(folder)? {
            closure.add_contracts(&file, &|_| true)?;
            contracts.insert(file);
        }
    }
    // A `main` can have no contract: what the printing program does is said by the contract of what it calls.
    for file in sources(CONTRACTS[1])? {
        for (called_in, name) in closure.calls(&file)? {
            closure.add_contracts(&called_in, &|function| function == name)?;
            contracts.insert(called_in);
        }
    }
    closure.add_page(PAGE)?;
    let mut names: BTreeMap<String, Vec<String>> = BTreeMap::new();
    for (file, name) in closure.reached {
        names.entry(file).or_default().push(name);
    }
    Ok(Found { names, contracts })
}

fn sources(folder: &str) -> Told<Vec<String>> {
    let entries = fs::read_dir(folder).map_err(|why| format!("{}: {}", folder, why))?;
    let paths = entries.flatten().map(|entry| entry.path().to_string_lossy().into_owned());
    Ok(paths.filter(|path| path.ends_with(".rt")).collect())
}

fn told(found: &Found) -> Told<bool> {
    for (file, names) in &found.names {
        println!("{}: {}", file, names.join(", "));
    }
    Ok(true)
}

/// The list has every file that holds a definition, and no other; the files of the contracts may stand in it.
fn compared(found: &Found) -> Told<bool> {
    let listed = listed(LIST)?;
    let mut right = true;
    for (file, names) in found.names.iter().filter(|(file, _)| !listed.contains(*file)) {
        println!("failed  \"{}\" lacks {} ({})", LIST, file, names.join(", "));
        right = false;
    }
    let known = |file: &&String| found.names.contains_key(*file) || found.contracts.contains(*file);
    for file in listed.iter().filter(|file| !known(file)) {
        println!("failed  \"{}\" has {}, on which nothing rests", LIST, file);
        right = false;
    }
    if right {
        println!("passed  the list has the {} files of a believed definition", found.names.len());
    }
    Ok(right)
}

//! The text of a definition or a contract as words, and which of them are bound there.

use std::collections::BTreeSet;

/// The words of a text without its comments. A bracket, a comma, a semicolon and the dot that ends a binder are words of their own;
/// a field stays with what it is taken of, as in `q.now`, or keeps its dot, as in `(f x).now`.
pub fn words(text: &str) -> Vec<String> {
    let mut list = Vec::new();
    for line in text.lines() {
        for part in without_comment(line).split_whitespace() {
            split(part, &mut list);
        }
    }
    list
}

pub fn without_comment(line: &str) -> &str {
    let starts = |at: usize| at == 0 || line[..at].ends_with(' ');
    match line.match_indices("--").find(|(at, _)| starts(*at)) {
        Some((at, _)) => &line[..at],
        None => line,
    }
}

fn split(part: &str, list: &mut Vec<String>) {
    let mut word = String::new();
    for c in part.replace("[]", "\u{0}").chars() {
        match c {
            '(' | ')' | '{' | '}' | '[' | ']' | ',' | ';' | '⌜' | '⌝' | '«' | '»' => {
                put(&mut word, list);
                list.push(c.to_string());
            }
            '\u{0}' => word.push_str("[]"),
            _ => word.push(c),
        }
    }
    put(&mut word, list);
}

fn put(word: &mut String, list: &mut Vec<String>) {
    let whole = std::mem::take(word);
    match whole.strip_suffix('.') {
        Some(bound) if !bound.is_empty() => list.extend([bound.to_string(), ".".to_string()]),
        _ if whole.is_empty() => {}
        _ => list.push(whole),
    }
}

/// The words that a text binds: in `(x : T)` and `{x : T}`, after `λ` and `let`, and in the cases of an `elim`. A constructor in a
/// pattern is none.
pub fn bound(words: &[String], constructor: &dyn Fn(&str) -> bool) -> BTreeSet<String> {
    let mut list = BTreeSet::new();
    for (at, word) in words.iter().enumerate() {
        let rest = &words[at + 1..];
        match word.as_str() {
            "(" | "{" => list.extend(before(rest, ":")),
            "λ" => list.extend(arguments(rest)),
            "let" => list.extend(rest.first().cloned()),
            "[" | "|" => list.extend(pattern(rest, "↦", constructor)),
            _ => {}
        }
    }
    list
}

/// The plain words up to one that ends them; none where something else stands between.
fn before(words: &[String], end: &str) -> Vec<String> {
    match words.iter().position(|word| !plain(word)) {
        Some(at) if words[at] == end => words[..at].to_vec(),
        _ => Vec::new(),
    }
}

/// The words between `λ` and its dot, but for those in brackets.
fn arguments(words: &[String]) -> Vec<String> {
    let mut depth = 0;
    let mut list = Vec::new();
    for word in words.iter().take_while(|word| *word != ".") {
        match word.as_str() {
            "(" | "{" => depth += 1,
            ")" | "}" => depth -= 1,
            _ if depth == 0 => list.push(word.clone()),
            _ => {}
        }
    }
    list
}

/// The variables of a pattern, up to the word that ends it outside all brackets.
pub fn pattern(words: &[String], end: &str, constructor: &dyn Fn(&str) -> bool) -> Vec<String> {
    let mut depth = 0;
    let mut list = Vec::new();
    for word in words {
        match word.as_str() {
            "(" | "{" | "[" => depth += 1,
            ")" | "}" | "]" => depth -= 1,
            _ if depth == 0 && word == end => return list,
            _ if plain(word) && !constructor(word) => list.push(word.clone()),
            _ => {}
        }
        if depth < 0 {
            break;
        }
    }
    Vec::new()
}

/// A word that can be a name: no bracket, sign of the language or field.
pub fn plain(word: &str) -> bool {
    const SIGNS: [&str; 17] =
        ["(", ")", "{", "}", "[", "]", ",", ";", ":", "=", ".", "|", "↦", "→", "λ", "⌜", "⌝"];
    !SIGNS.contains(&word) && !word.starts_with('.')
}

/// Without the fields that are taken of it.
pub fn whole(word: &str) -> &str {
    word.split('.').next().unwrap_or(word)
}

/// The words that may name a definition: not bound, and no label of `record { .. }`.
pub fn used(words: &[String], bound: &BTreeSet<String>) -> Vec<String> {
    let label = |at: usize| {
        at > 0
            && ["{", ";"].contains(&words[at - 1].as_str())
            && words.get(at + 1).map_or(false, |next| next == "=")
    };
    let names = words.iter().enumerate().filter(|(at, word)| plain(word) && !label(*at));
    names.map(|(_, word)| word.clone()).filter(|word| !bound.contains(whole(word))).collect()
}

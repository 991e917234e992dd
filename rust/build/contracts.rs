//! Puts the parts of a Rattle source that aren't Rust in comments, so that a Rust compiler accepts the source. Each
//! line keeps its number, and each contract stays beside its code.
//!
//! Contracts are found by how lines begin. The repository's tests find them in the same sources by tokens, and compare.

/// The beginnings of parts that aren't Rust, and whether the part ends after the next braces or right there.
const CONTRACTS: &[(&str, bool)] = &[
    ("requires ", true),
    ("ensures ", true),
    ("ensures* ", true),
    ("#[derive(Drop)]", false),
    ("final ", false),
    ("use std::marker::Model;", false),
    ("use std::alloc::AllocError;", false),
];

/// The name of a public function, and one of its preconditions.
pub type Precondition = (String, String);

/// Whether a character can be in a word.
pub fn is_in_word(sign: char) -> bool {
    sign == '_' || sign.is_alphanumeric()
}

/// The distance to the end of the next braces. Braces in comments don't count.
fn braces(text: &str) -> Result<usize, String> {
    let (mut depth, mut at) = (0, 0);
    while let Some(next) = text[at..].find(['{', '}', '/']) {
        at += next + 1;
        match &text[at - 1..at] {
            "{" => depth += 1,
            "}" => depth -= 1,
            _ if text[at..].starts_with('/') => at += text[at..].find('\n').unwrap_or(0),
            _ => continue,
        }
        if depth == 0 && text[..at].ends_with('}') {
            return Ok(at);
        }
    }
    Err(without_end(text))
}

fn without_end(text: &str) -> String {
    format!("a contract doesn't end: {}", first_line(text))
}

fn first_line(text: &str) -> &str {
    text.lines().next().unwrap_or_default()
}

/// The distance to the end of one of these signs.
fn sign(text: &str, signs: [char; 2]) -> Result<usize, String> {
    text.find(signs).map(|at| at + 1).ok_or_else(|| without_end(text))
}

/// The length of the contract that begins here, if there is one: a clause, a ghost item, a tactic, a word of Rattle's
/// own, the model of a type, or a clone that may fail, which Rust derives instead.
fn contract(text: &str) -> Result<Option<usize>, String> {
    if let Some(&(begin, has_braces)) = CONTRACTS.iter().find(|it| text.starts_with(it.0)) {
        return Ok(Some(if has_braces { braces(text)? } else { begin.trim_end().len() }));
    }
    if text.starts_with("#[tactic(") || text.starts_with("#![tactic(") {
        let end = text.find(")]").ok_or_else(|| without_end(text))?;
        return Ok(Some(end + 2));
    }
    if text.starts_with("impl") {
        let head = text.split('{').next().unwrap_or_default();
        let is_contract = head.contains(" Model for ") || head.contains(" Clone for ");
        return if is_contract { braces(text).map(Some) } else { Ok(None) };
    }
    let item = ["pub ", "pub(crate) "].iter().find_map(|it| text.strip_prefix(it)).unwrap_or(text);
    if !item.starts_with("ghost ") {
        return Ok(None);
    }
    // The item ends at its semicolon or comma, after its braces if it has some. A clause ends with its braces.
    let has_braces = text[..sign(text, ['{', ';'])?].ends_with('{');
    let end = if has_braces { braces(text)? } else { 0 };
    let is_clause = ["requires", "ensures"].iter().any(|it| text[end..].trim_start().starts_with(it));
    Ok(Some(if is_clause { end } else { end + sign(&text[end..], [';', ','])? }))
}

/// Refuses a contract that takes more than its own lines, as one without a closing brace takes the code after it. Its
/// further lines are indented as its first one at least, and code by less.
fn check_lines(clause: &str, indentation: usize) -> Result<(), String> {
    let is_its = |line: &str| line.is_empty() || line.len() - line.trim_start_matches(' ').len() >= indentation;
    if !clause.split('\n').skip(1).all(is_its) {
        return Err(format!("a contract doesn't end where its lines end: {}", first_line(clause)));
    }
    if clause.contains("*/") {
        return Err(format!("a contract has the end of a comment: {}", first_line(clause)));
    }
    Ok(())
}

/// The precondition in a clause, if `before` ends with the signature of a public function or of one in a public trait.
fn precondition(before: &str, clause: &str) -> Option<Precondition> {
    let inside = clause.strip_prefix("requires ")?.split_once('{')?.1.strip_suffix('}')?;
    let (head, after) = before.rsplit_once("fn ")?;
    let line = head.rsplit('\n').next()?.trim_start();
    let name = after.split(|sign: char| !is_in_word(sign)).next()?;
    let is_in_trait = before.rsplit("\n}").next()?.contains("\npub trait ");
    let is_public = line.starts_with("pub ") || is_in_trait;
    is_public.then(|| (name.to_owned(), inside.split_whitespace().collect::<Vec<_>>().join(" ")))
}

/// The source with its contracts in comments, and the preconditions of its public functions.
pub fn commented(text: &str) -> Result<(String, Vec<Precondition>), String> {
    let (mut left, mut rest, mut preconditions) = (String::new(), text, Vec::new());
    let mut indentation = 0;
    while !rest.is_empty() {
        let (space, line) = rest.split_at(rest.len() - rest.trim_start_matches(' ').len());
        if left.is_empty() || left.ends_with('\n') {
            indentation = space.len();
        }
        left += space;
        // The rest of a contract's line may be another contract.
        let length = if let Some(length) = contract(line)? {
            let clause = &line[..length];
            check_lines(clause, indentation)?;
            preconditions.extend(precondition(&left, clause));
            left = left + "/* " + clause + " */";
            length
        } else {
            let length = line.find('\n').map_or(line.len(), |at| at + 1);
            left += &line[..length];
            length
        };
        rest = &line[length..];
    }
    Ok((left, preconditions))
}

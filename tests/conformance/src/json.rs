//! The part of JSON that the rows use.

use std::iter::Peekable;
use std::str::Chars;

#[derive(Clone, Debug)]
pub enum Json {
    /// A string, or the letters and digits of anything else that is no list or object.
    Text(String),
    List(Vec<Json>),
    Object(Vec<(String, Json)>),
}

impl Json {
    /// Parses a text.
    pub fn of(text: &str) -> Json {
        value(&mut text.chars().peekable())
    }

    /// A member of an object.
    pub fn get(&self, name: &str) -> Option<&Json> {
        self.members().iter().find(|it| it.0 == name).map(|it| &it.1)
    }

    pub fn members(&self) -> &[(String, Json)] {
        if let Json::Object(members) = self { members } else { panic!("{self:?} is no object") }
    }

    pub fn items(&self) -> &[Json] {
        if let Json::List(items) = self { items } else { panic!("{self:?} is no list") }
    }

    /// A member that is a number.
    pub fn number(&self, name: &str) -> u64 {
        self.get(name).expect(name).text().parse().unwrap()
    }

    pub fn text(&self) -> &str {
        if let Json::Text(text) = self { text } else { panic!("{self:?} is no text") }
    }
}

/// The text of a row: a string, or parts that may repeat. `None` if it is bytes.
pub fn text_of(json: &Json) -> Option<String> {
    match json {
        Json::Text(text) => Some(text.clone()),
        Json::List(parts) => Some(parts.iter().map(part).collect()),
        _ => None,
    }
}

fn part(json: &Json) -> String {
    match json {
        Json::List(pair) => pair[0].text().repeat(pair[1].text().parse().unwrap()),
        _ => json.text().into(),
    }
}

/// The next character that isn't white space. It isn't consumed.
fn peek(signs: &mut Peekable<Chars>) -> char {
    while signs.next_if(|it| it.is_whitespace()).is_some() {}
    *signs.peek().expect("the text ends too early")
}

fn value(signs: &mut Peekable<Chars>) -> Json {
    match peek(signs) {
        '"' => Json::Text(text(signs)),
        '[' => Json::List(until(signs, ']', value)),
        '{' => Json::Object(until(signs, '}', |signs| {
            peek(signs);
            let name = text(signs);
            assert_eq!((peek(signs), signs.next()), (':', Some(':')));
            (name, value(signs))
        })),
        _ => Json::Text(std::iter::from_fn(|| signs.next_if(|it| it.is_alphanumeric() || *it == '-')).collect()),
    }
}

/// The items up to a bracket, with commas between them.
fn until<T>(signs: &mut Peekable<Chars>, end: char, item: impl Fn(&mut Peekable<Chars>) -> T) -> Vec<T> {
    let mut items = Vec::new();
    signs.next();
    while peek(signs) != end {
        items.push(item(signs));
        if peek(signs) == ',' {
            signs.next();
        }
    }
    signs.next();
    items
}

fn text(signs: &mut Peekable<Chars>) -> String {
    assert_eq!(signs.next(), Some('"'));
    let mut said = String::new();
    loop {
        match signs.next().expect("a text has an end") {
            '"' => return said,
            '\\' => said.push(match signs.next().expect("a text has an end") {
                'n' => '\n',
                'r' => '\r',
                't' => '\t',
                'u' => {
                    let digits: String = signs.by_ref().take(4).collect();
                    char::from_u32(u32::from_str_radix(&digits, 16).unwrap()).expect("no pair of surrogates")
                }
                sign => sign,
            }),
            sign => said.push(sign),
        }
    }
}

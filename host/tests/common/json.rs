//! JSON, read strictly: as the command writes it, bar white space.

#![allow(dead_code)]

/// A JSON value. Numbers are those that the command has.
#[derive(Clone, Debug, PartialEq, Eq)]
pub enum Value {
    Null,
    Truth(bool),
    Number(u64),
    Text(String),
    List(Vec<Value>),
    Object(Vec<(String, Value)>),
}

impl Value {
    /// The member of an object that has this name.
    pub fn get(&self, name: &str) -> Option<&Value> {
        match self {
            Value::Object(members) => {
                let mut named = members.iter().filter(|(other, _)| other == name);
                named.next().map(|(_, value)| value)
            }
            _ => None,
        }
    }

    /// The same of a member of a member, and so on.
    pub fn at(&self, names: &[&str]) -> Option<&Value> {
        names.iter().try_fold(self, |value, name| value.get(name))
    }

    pub fn number(&self) -> Option<u64> {
        match self {
            Value::Number(number) => Some(*number),
            _ => None,
        }
    }

    pub fn text(&self) -> Option<&str> {
        match self {
            Value::Text(text) => Some(text),
            _ => None,
        }
    }

    pub fn list(&self) -> Option<&[Value]> {
        match self {
            Value::List(values) => Some(values),
            _ => None,
        }
    }
}

/// The one value that a text is.
pub fn parse(text: &str) -> Option<Value> {
    let mut rest = text;
    let value = value(&mut rest)?;
    rest.trim_start().is_empty().then_some(value)
}

/// Whether this is one JSON value and nothing else.
pub fn is_json(text: &str) -> bool {
    parse(text).is_some()
}

/// The value that the rest begins with, which is taken off.
fn value(rest: &mut &str) -> Option<Value> {
    *rest = rest.trim_start();
    match rest.chars().next()? {
        '{' => {
            let member = |rest: &mut &str| {
                let name = string(rest)?;
                took(rest, ":")
                    .then(|| value(rest))?
                    .map(|value| (name, value))
            };
            items(rest, "{", "}", member).map(Value::Object)
        }
        '[' => items(rest, "[", "]", value).map(Value::List),
        '"' => string(rest).map(Value::Text),
        _ => word(rest),
    }
}

fn word(rest: &mut &str) -> Option<Value> {
    let end = rest.find(|c: char| !c.is_ascii_alphanumeric());
    let (word, after) = rest.split_at(end.unwrap_or(rest.len()));
    *rest = after;
    match word {
        "null" => Some(Value::Null),
        "true" => Some(Value::Truth(true)),
        "false" => Some(Value::Truth(false)),
        number => number.parse().ok().map(Value::Number),
    }
}

fn items<T>(
    rest: &mut &str,
    begin: &str,
    end: &str,
    item: impl Fn(&mut &str) -> Option<T>,
) -> Option<Vec<T>> {
    let mut items = Vec::new();
    took(rest, begin).then_some(())?;
    if took(rest, end) {
        return Some(items);
    }
    loop {
        items.push(item(rest)?);
        if took(rest, end) {
            return Some(items);
        }
        took(rest, ",").then_some(())?;
    }
}

fn took(rest: &mut &str, expected: &str) -> bool {
    match rest.trim_start().strip_prefix(expected) {
        Some(after) => {
            *rest = after;
            true
        }
        None => false,
    }
}

fn string(rest: &mut &str) -> Option<String> {
    took(rest, "\"").then_some(())?;
    let mut characters = rest.chars();
    let mut text = String::new();
    loop {
        match characters.next()? {
            '"' => break,
            '\\' => text.push(escaped(&mut characters)?),
            control if control < ' ' => return None,
            other => text.push(other),
        }
    }
    *rest = characters.as_str();
    Some(text)
}

fn escaped(characters: &mut std::str::Chars) -> Option<char> {
    match characters.next()? {
        same @ ('"' | '\\') => Some(same),
        'u' => {
            let digits: String = characters.take(4).collect();
            char::from_u32(u32::from_str_radix(&digits, 16).ok()?)
        }
        _ => None,
    }
}

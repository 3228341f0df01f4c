//! A strict reader of JSON as RFC 8259 has it, with no name twice in an object. Of
//! numbers only whole ones from 0 up are taken: the program writes no others.

use std::iter::Peekable;
use std::str::Chars;

/// A value.
#[derive(Clone, Debug, PartialEq, Eq)]
pub enum Value {
    /// `null`.
    Null,
    /// `true` or `false`.
    Truth(bool),
    /// A number.
    Number(u64),
    /// A string.
    Text(String),
    /// An array.
    Array(Vec<Value>),
    /// An object, its members in the order in which they stand.
    Object(Vec<(String, Value)>),
}

impl Value {
    /// The value that a whole text is.
    pub fn read(text: &str) -> Result<Value, String> {
        let rest = text.chars().peekable();
        let mut reader = Reader { rest };
        let value = reader.value()?;
        match reader.next_token() {
            None => Ok(value),
            Some(more) => Err(format!("{more:?} after the value")),
        }
    }

    /// The values of the array that the program printed.
    pub fn printed(text: &str) -> Vec<Value> {
        match Value::read(text) {
            Ok(Value::Array(values)) => values,
            other => panic!("no array: {other:?} in {text}"),
        }
    }

    /// The member of this name; the object has to have it.
    pub fn at(&self, name: &str) -> &Value {
        let member = self.member(name);
        member.unwrap_or_else(|| panic!("no member {name} in {self:?}"))
    }

    /// The member of this name, where there is one.
    pub fn member(&self, name: &str) -> Option<&Value> {
        let member = self.members().iter().find(|(of, _)| of == name);
        member.map(|(_, value)| value)
    }

    /// The names of an object's members.
    pub fn names(&self) -> Vec<&str> {
        let members = self.members().iter();
        members.map(|(name, _)| name.as_str()).collect()
    }

    fn members(&self) -> &[(String, Value)] {
        match self {
            Value::Object(members) => members,
            _ => panic!("no object: {self:?}"),
        }
    }

    /// The values of an array.
    pub fn values(&self) -> &[Value] {
        match self {
            Value::Array(values) => values,
            _ => panic!("no array: {self:?}"),
        }
    }

    /// A number.
    pub fn number(&self) -> u64 {
        match self {
            Value::Number(number) => *number,
            _ => panic!("no number: {self:?}"),
        }
    }

    /// A string.
    pub fn text(&self) -> &str {
        match self {
            Value::Text(text) => text,
            _ => panic!("no string: {self:?}"),
        }
    }
}

struct Reader<'a> {
    rest: Peekable<Chars<'a>>,
}

type Read<T> = Result<T, String>;

impl Reader<'_> {
    /// The next character that isn't white space, which is left.
    fn next_token(&mut self) -> Option<char> {
        let white = |c: &char| [' ', '\t', '\n', '\r'].contains(c);
        while self.rest.next_if(white).is_some() {}
        self.rest.peek().copied()
    }

    fn take(&mut self, wanted: char) -> Read<()> {
        match self.rest.next() {
            Some(next) if next == wanted => Ok(()),
            other => Err(format!("{other:?} in place of {wanted:?}")),
        }
    }

    fn value(&mut self) -> Read<Value> {
        match self.next_token() {
            Some('{') => self.object(),
            Some('[') => self.array(),
            Some('"') => self.string().map(Value::Text),
            Some('0'..='9') => self.number(),
            Some('n') => self.word("null", Value::Null),
            Some('t') => self.word("true", Value::Truth(true)),
            Some('f') => self.word("false", Value::Truth(false)),
            other => Err(format!("no value begins with {other:?}")),
        }
    }

    fn word(&mut self, word: &str, value: Value) -> Read<Value> {
        word.chars().try_for_each(|c| self.take(c))?;
        Ok(value)
    }

    fn object(&mut self) -> Read<Value> {
        self.take('{')?;
        let mut members: Vec<(String, Value)> = Vec::new();
        let mut goes_on = self.next_token() != Some('}');
        if !goes_on {
            self.take('}')?;
        }
        while goes_on {
            self.next_token();
            let name = self.string()?;
            if members.iter().any(|(of, _)| *of == name) {
                return Err(format!("{name:?} twice"));
            }
            self.next_token();
            self.take(':')?;
            members.push((name, self.value()?));
            goes_on = self.goes_on('}')?;
        }
        Ok(Value::Object(members))
    }

    fn array(&mut self) -> Read<Value> {
        self.take('[')?;
        let mut values = Vec::new();
        let mut goes_on = self.next_token() != Some(']');
        if !goes_on {
            self.take(']')?;
        }
        while goes_on {
            values.push(self.value()?);
            goes_on = self.goes_on(']')?;
        }
        Ok(Value::Array(values))
    }

    /// Takes a comma, or the end of an array or object; tells which.
    fn goes_on(&mut self, end: char) -> Read<bool> {
        if self.next_token() == Some(',') {
            return self.take(',').map(|()| true);
        }
        self.take(end).map(|()| false)
    }

    fn string(&mut self) -> Read<String> {
        self.take('"')?;
        let mut text = String::new();
        loop {
            match self.rest.next() {
                None => return Err("a string without end".to_string()),
                Some('"') => return Ok(text),
                Some('\\') => text.push(self.escaped()?),
                Some(c) if c < ' ' => return Err(format!("{c:?} in a string")),
                Some(c) => text.push(c),
            }
        }
    }

    fn escaped(&mut self) -> Read<char> {
        match self.rest.next() {
            Some(c @ ('"' | '\\' | '/')) => Ok(c),
            Some('b') => Ok('\u{8}'),
            Some('f') => Ok('\u{c}'),
            Some('n') => Ok('\n'),
            Some('r') => Ok('\r'),
            Some('t') => Ok('\t'),
            Some('u') => self.unit(),
            other => Err(format!("\\{other:?}")),
        }
    }

    /// The character of `\uNNNN`, or of a pair of them.
    fn unit(&mut self) -> Read<char> {
        let mut code = self.hex()?;
        if (0xD800..0xDC00).contains(&code) {
            self.take('\\')?;
            self.take('u')?;
            let second = self.hex()?;
            if !(0xDC00..0xE000).contains(&second) {
                return Err("half a pair".to_string());
            }
            code = 0x10000 + ((code - 0xD800) << 10) + (second - 0xDC00);
        }
        char::from_u32(code).ok_or_else(|| format!("no character {code:x}"))
    }

    fn hex(&mut self) -> Read<u32> {
        let mut code = 0;
        for _ in 0..4 {
            let digit = self.rest.next().and_then(|c| c.to_digit(16));
            code = 16 * code + digit.ok_or("no digit")?;
        }
        Ok(code)
    }

    fn number(&mut self) -> Read<Value> {
        let mut digits = String::new();
        while let Some(digit) = self.rest.next_if(char::is_ascii_digit) {
            digits.push(digit);
        }
        if digits.starts_with('0') && digits.len() > 1 {
            return Err(format!("a zero before {digits}"));
        }
        let number = digits.parse().map(Value::Number);
        number.map_err(|_| format!("{digits} is too great"))
    }
}

#[test]
fn reads_what_it_should_and_nothing_else() {
    let text = r#" {"a": [1, 0, true, null], "b\n": "\u00e4\ud83d\ude00\\\"", "c": {}} "#;
    let value = Value::read(text).expect("it is JSON");
    assert_eq!(value.names(), ["a", "b\n", "c"]);
    assert_eq!(value.at("a").values()[0].number(), 1);
    assert_eq!(value.at("a").values()[3], Value::Null);
    assert_eq!(value.at("b\n").text(), "ä😀\\\"");

    let wrong = [
        "",
        "[1,]",
        "[,1]",
        "[1 2]",
        "{\"a\":1,}",
        "{a:1}",
        "\"\n\"",
        "[1]]",
        "01",
        "\"\\x41\"",
        "nul",
        "{\"a\":1,\"a\":2}",
        "\"\\ud800\"",
        "'a'",
        "[",
        "\"",
        "{\"a\"}",
        "-1",
        "1.5",
    ];
    for text in wrong {
        assert!(Value::read(text).is_err(), "{text:?} was read");
    }
}

//! A strict reader of XML: one tree of elements, well-formed as XML 1.0 asks, with
//! no document type.

/// An element.
#[derive(Clone, Debug, Default, PartialEq)]
pub struct Element {
    /// Its name.
    pub name: String,
    /// Its attributes, each once.
    pub attributes: Vec<(String, String)>,
    /// The elements in it.
    pub children: Vec<Element>,
    /// The text that stands in it directly.
    pub text: String,
}

impl Element {
    /// The root of a whole document.
    pub fn read(text: &str) -> Result<Element, String> {
        let known = |c: char| c >= ' ' || ['\t', '\n', '\r'].contains(&c);
        let allowed = |c: char| known(c) && !['\u{FFFE}', '\u{FFFF}'].contains(&c);
        if let Some(wrong) = text.chars().find(|&c| !allowed(c)) {
            return Err(format!("{wrong:?} is no character of XML"));
        }
        let mut reader = Reader { rest: text };
        reader.declaration()?;
        reader.between()?;
        let root = reader.element()?;
        reader.between()?;
        if reader.rest.is_empty() {
            Ok(root)
        } else {
            Err(format!("after the root: {:.20}", reader.rest))
        }
    }

    /// The value of an attribute.
    pub fn attribute(&self, name: &str) -> Option<&str> {
        let attribute = self.attributes.iter().find(|(of, _)| of == name);
        attribute.map(|(_, value)| value.as_str())
    }

    /// This element and all in it, in the order in which they stand.
    pub fn all(&self) -> Vec<&Element> {
        let mut all = vec![self];
        all.extend(self.children.iter().flat_map(Element::all));
        all
    }

    /// All elements of this name.
    pub fn named(&self, name: &str) -> Vec<&Element> {
        let mut all = self.all();
        all.retain(|element| element.name == name);
        all
    }
}

struct Reader<'a> {
    rest: &'a str,
}

type Read<T> = Result<T, String>;

impl<'a> Reader<'a> {
    fn wrong<T>(&self, wanted: &str) -> Read<T> {
        let rest: String = self.rest.chars().take(30).collect();
        Err(format!("{wanted} wanted before {rest:?}"))
    }

    fn goes_on_with(&mut self, start: &str) -> bool {
        let rest = self.rest.strip_prefix(start);
        self.rest = rest.unwrap_or(self.rest);
        rest.is_some()
    }

    fn take(&mut self, wanted: &str) -> Read<()> {
        if self.goes_on_with(wanted) {
            Ok(())
        } else {
            self.wrong(wanted)
        }
    }

    /// What stands before `end`, which is taken too.
    fn up_to(&mut self, end: &str) -> Read<&'a str> {
        let Some((before, rest)) = self.rest.split_once(end) else {
            return self.wrong(end);
        };
        self.rest = rest;
        Ok(before)
    }

    fn white(&mut self) -> bool {
        let rest = self.rest.trim_start_matches([' ', '\t', '\n', '\r']);
        let some = rest.len() < self.rest.len();
        self.rest = rest;
        some
    }

    fn declaration(&mut self) -> Read<()> {
        if !self.goes_on_with("<?xml ") {
            return Ok(());
        }
        let declared = self.up_to("?>")?;
        if declared.starts_with("version=\"1.0\"") {
            Ok(())
        } else {
            Err(format!("declared: {declared}"))
        }
    }

    /// White space and comments.
    fn between(&mut self) -> Read<()> {
        loop {
            self.white();
            if !self.goes_on_with("<!--") {
                return Ok(());
            }
            self.comment()?;
        }
    }

    fn comment(&mut self) -> Read<()> {
        let comment = self.up_to("--")?;
        if !self.goes_on_with(">") {
            return Err(format!("two hyphens in the comment {comment:?}"));
        }
        Ok(())
    }

    fn name(&mut self) -> Read<String> {
        let of_name = |c: char| c.is_alphanumeric() || "_:-.".contains(c);
        let end = self.rest.find(|c| !of_name(c)).unwrap_or(self.rest.len());
        let (name, rest) = self.rest.split_at(end);
        if !name.starts_with(|c: char| c.is_alphabetic() || c == '_' || c == ':') {
            return self.wrong("a name");
        }
        self.rest = rest;
        Ok(name.to_string())
    }

    fn element(&mut self) -> Read<Element> {
        self.take("<")?;
        let mut element = Element {
            name: self.name()?,
            ..Element::default()
        };
        loop {
            let spaced = self.white();
            if self.goes_on_with("/>") {
                return Ok(element);
            }
            if self.goes_on_with(">") {
                return self.content(element);
            }
            if !spaced {
                return self.wrong("a space");
            }
            let attribute = self.attribute()?;
            if element.attribute(&attribute.0).is_some() {
                return Err(format!("{} twice", attribute.0));
            }
            element.attributes.push(attribute);
        }
    }

    fn attribute(&mut self) -> Read<(String, String)> {
        let name = self.name()?;
        self.white();
        self.take("=")?;
        self.white();
        let quote = if self.goes_on_with("'") { "'" } else { "\"" };
        if quote == "\"" {
            self.take(quote)?;
        }
        let value = self.up_to(quote)?;
        if value.contains('<') {
            return Err(format!("< in the attribute {name}"));
        }
        Ok((name, unescaped(value)?))
    }

    /// What an element holds, up to its end.
    fn content(&mut self, mut element: Element) -> Read<Element> {
        loop {
            let Some(next) = self.rest.find('<') else {
                return self.wrong("the end of an element");
            };
            let (text, rest) = self.rest.split_at(next);
            if text.contains("]]>") {
                return Err("]]> in a text".to_string());
            }
            element.text += &unescaped(text)?;
            self.rest = rest;
            if self.goes_on_with("</") {
                self.take(&element.name)?;
                self.white();
                self.take(">")?;
                return Ok(element);
            }
            if self.goes_on_with("<!--") {
                self.comment()?;
            } else {
                element.children.push(self.element()?);
            }
        }
    }
}

/// A text with its references to characters put in.
fn unescaped(text: &str) -> Read<String> {
    let mut parts = text.split('&');
    let mut plain = parts.next().unwrap_or_default().to_string();
    for part in parts {
        let Some((name, rest)) = part.split_once(';') else {
            return Err(format!("a bare & before {part:?}"));
        };
        plain.push(match name {
            "lt" => '<',
            "gt" => '>',
            "amp" => '&',
            "quot" => '"',
            "apos" => '\'',
            _ => numbered(name).ok_or_else(|| format!("&{name};"))?,
        });
        plain += rest;
    }
    Ok(plain)
}

/// The character that `#65` or `#x41` names.
fn numbered(name: &str) -> Option<char> {
    let digits = name.strip_prefix('#')?;
    let code = match digits.strip_prefix('x') {
        Some(hex) => u32::from_str_radix(hex, 16).ok()?,
        None => digits.parse().ok()?,
    };
    let character = char::from_u32(code)?;
    let allowed = character >= ' ' || ['\t', '\n', '\r'].contains(&character);
    allowed.then_some(character)
}

#[test]
fn reads_what_it_should_and_nothing_else() {
    let text =
        "<?xml version=\"1.0\"?>\n<!-- a --><a b='1&lt;' c=\"&#65;\">x<d/>&amp;<e> </e></a>\n";
    let root = Element::read(text).expect("it is well-formed");
    assert_eq!((root.name.as_str(), root.text.as_str()), ("a", "x&"));
    assert_eq!(root.attribute("b"), Some("1<"));
    assert_eq!(root.attribute("c"), Some("A"));
    assert_eq!(root.named("e").len(), 1);
    assert_eq!(root.all().len(), 3);

    let wrong = [
        "",
        "x",
        "<a>",
        "<a></b>",
        "<a/><b/>",
        "<a b=1/>",
        "<a b='1' b='2'/>",
        "<a b='<'/>",
        "<a>&</a>",
        "<a>&nbsp;</a>",
        "<a>\u{1b}</a>",
        "<a>&#27;</a>",
        "<a b='1'c='2'/>",
        "<1/>",
        "<a>]]></a>",
        "<!-- -- --><a/>",
        "<a/>x",
        "<a",
        "<?xml version=\"2.0\"?><a/>",
    ];
    for text in wrong {
        assert!(Element::read(text).is_err(), "{text:?} was read");
    }
}

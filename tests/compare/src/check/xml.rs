//! A small reader of XML, for pictures: elements with attributes in quotes, and text.
//! It knows no declarations, comments or entities, and refuses them.

/// An element: its name, its attributes in their order, and what stands in it.
#[derive(Clone, Debug, Default, PartialEq, Eq)]
pub struct Element {
    pub name: String,
    pub attributes: Vec<(String, String)>,
    pub children: Vec<Element>,
    /// The text between its tags, without that of its children.
    pub text: String,
}

impl Element {
    /// The value of an attribute.
    pub fn get(&self, name: &str) -> Result<&str, String> {
        let found = self.attributes.iter().find(|(other, _)| other == name);
        let value = found.map(|(_, value)| value.as_str());
        value.ok_or_else(|| format!("no {name} in {}", self.name))
    }

    /// The names of its attributes, in their order.
    pub fn names(&self) -> Vec<&str> {
        self.attributes.iter().map(|pair| pair.0.as_str()).collect()
    }

    /// The element and all that stand in it, each before what stands in it.
    pub fn all(&self) -> Vec<&Element> {
        let inside = self.children.iter().flat_map(Element::all);
        [self].into_iter().chain(inside).collect()
    }
}

/// Reads a text that is one element, with white space around it at most.
pub fn read(text: &str) -> Result<Element, String> {
    let mut reader = Reader {
        rest: text.trim_start(),
    };
    let element = reader.element()?;
    match reader.rest.trim() {
        "" => Ok(element),
        more => Err(format!("more behind the end: {more}")),
    }
}

/// What is not read yet.
struct Reader<'a> {
    rest: &'a str,
}

impl<'a> Reader<'a> {
    /// Takes a text that has to come next.
    fn expect(&mut self, wanted: &str) -> Result<(), String> {
        match self.rest.strip_prefix(wanted) {
            Some(rest) => {
                self.rest = rest;
                Ok(())
            }
            None => Err(format!("no {wanted} before {:.40}", self.rest)),
        }
    }

    /// Takes everything in front of one of these characters, which has to come.
    fn until(&mut self, ends: &[char]) -> Result<&'a str, String> {
        let end = self.rest.find(ends).ok_or("the text ends too early")?;
        let (taken, rest) = self.rest.split_at(end);
        self.rest = rest;
        Ok(taken)
    }

    /// A name of letters and hyphens, with a letter first.
    fn name(&mut self) -> Result<String, String> {
        let other = |c: char| !c.is_ascii_alphabetic() && c != '-';
        let end = self.rest.find(other).unwrap_or(self.rest.len());
        let (name, rest) = self.rest.split_at(end);
        if name.is_empty() || name.starts_with('-') {
            return Err(format!("no name before {:.40}", self.rest));
        }
        self.rest = rest;
        Ok(name.to_string())
    }

    /// An attribute, with its value in quotes of one sort.
    fn attribute(&mut self) -> Result<(String, String), String> {
        let name = self.name()?;
        self.expect("=")?;
        let quote = if self.rest.starts_with('"') {
            "\""
        } else {
            "'"
        };
        self.expect(quote)?;
        let value = self.until(&['\'', '"', '<', '&'])?.to_string();
        self.expect(quote)?;
        Ok((name, value))
    }

    /// An element from its first tag to its last.
    fn element(&mut self) -> Result<Element, String> {
        self.expect("<")?;
        let mut element = Element {
            name: self.name()?,
            ..Element::default()
        };
        while self.rest.starts_with(char::is_whitespace) {
            self.rest = self.rest.trim_start();
            let (name, value) = self.attribute()?;
            if element.get(&name).is_ok() {
                return Err(format!("two attributes {name} in {}", element.name));
            }
            element.attributes.push((name, value));
        }
        if self.expect("/>").is_ok() {
            return Ok(element);
        }
        self.expect(">")?;
        while !self.rest.starts_with("</") {
            if self.rest.starts_with('<') {
                let child = self.element()?;
                element.children.push(child);
            } else {
                element.text += self.until(&['<', '&', '>'])?;
                if !self.rest.starts_with('<') {
                    return Err(format!("a mark in the text: {:.40}", self.rest));
                }
            }
        }
        self.expect(&format!("</{}>", element.name))?;
        Ok(element)
    }
}

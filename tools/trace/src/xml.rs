//! As much of XML as an export of telegrams has: elements with attributes, text, comments, instructions. What is not well
//! formed is refused with its line and column; so is a DOCTYPE, which no export has.

/// An element's start.
#[derive(Clone, Debug, PartialEq, Eq)]
pub struct Element<'a> {
    /// Without the part before a colon.
    pub name: &'a str,
    pub attributes: Vec<(&'a str, String)>,
    pub line: usize,
    /// Its line from the start on up to it.
    before: &'a str,
}

impl Element<'_> {
    /// The value of an attribute, whatever the case of its name.
    pub fn attribute(&self, name: &str) -> Option<&str> {
        self.attributes.iter().find(|a| a.0.eq_ignore_ascii_case(name)).map(|a| a.1.as_str())
    }

    /// A fault in it, with its place.
    pub fn fault(&self, what: &str) -> String {
        placed(self.line, self.before, what)
    }
}

/// So deep an export is at most, and so many attributes an element has.
const DEEPEST: usize = 64;
const ATTRIBUTES: usize = 64;

/// What is wrong, by its line and what stands before it in the line. A whole export may be one line, so columns are counted
/// for a fault alone.
fn placed(line: usize, before: &str, what: &str) -> String {
    format!("line {line}, column {}: {what}", before.chars().count() + 1)
}

struct Reader<'a> {
    text: &'a str,
    at: usize,
    line: usize,
    line_start: usize,
    open: Vec<&'a str>,
    /// The root has ended.
    ended: bool,
}

/// Hands every element of a text to a function, in order; the first fault, or the function's, ends it.
pub fn elements<'a>(
    text: &'a str,
    mut each: impl FnMut(Element<'a>) -> Result<(), String>,
) -> Result<(), String> {
    let text = text.strip_prefix('\u{feff}').unwrap_or(text);
    let mut r = Reader { text, at: 0, line: 1, line_start: 0, open: Vec::new(), ended: false };
    while r.at < r.text.len() {
        if r.rest().starts_with("<!--") {
            r.past("<!--", "-->", "a comment")?;
        } else if r.rest().starts_with("<![CDATA[") && !r.open.is_empty() {
            r.past("<![CDATA[", "]]>", "a CDATA section")?;
        } else if r.rest().starts_with("<?") {
            r.past("<?", "?>", "an instruction")?;
        } else if r.rest().starts_with("<!") {
            return r.fault("a declaration such as DOCTYPE, which no export has");
        } else if r.rest().starts_with("</") {
            r.end_tag()?;
        } else if r.rest().starts_with('<') {
            each(r.start_tag()?)?;
        } else {
            r.outside()?;
        }
    }
    match r.open.last() {
        Some(name) => r.fault(&format!("the end: {} has not ended", short(name))),
        None if !r.ended => r.fault("the end, and no element before it"),
        None => Ok(()),
    }
}

fn short(name: &str) -> String {
    sheet::make::short(name)
}

fn name_char(c: char) -> bool {
    c.is_alphanumeric() || "_-.:".contains(c)
}

fn local(name: &str) -> &str {
    name.rsplit(':').next().unwrap_or(name)
}

impl<'a> Reader<'a> {
    fn rest(&self) -> &'a str {
        &self.text[self.at..]
    }

    fn before(&self) -> &'a str {
        &self.text[self.line_start..self.at]
    }

    fn fault<T>(&self, what: &str) -> Result<T, String> {
        Err(placed(self.line, self.before(), what))
    }

    fn go(&mut self, bytes: usize) {
        let passed = &self.text[self.at..self.at + bytes];
        self.line += passed.bytes().filter(|&b| b == b'\n').count();
        if let Some(last) = passed.rfind('\n') {
            self.line_start = self.at + last + 1;
        }
        self.at += bytes;
    }

    fn blanks(&mut self) {
        let rest = self.rest();
        self.go(rest.len() - rest.trim_start().len());
    }

    fn past(&mut self, start: &str, end: &str, what: &str) -> Result<(), String> {
        match self.rest()[start.len()..].find(end) {
            Some(length) => {
                self.go(start.len() + length + end.len());
                Ok(())
            }
            None => self.fault(&format!("{what} without its end")),
        }
    }

    /// Text between tags; around the root there are blanks alone.
    fn outside(&mut self) -> Result<(), String> {
        let upto = self.rest().find('<').unwrap_or(self.rest().len());
        if self.open.is_empty() {
            self.blanks();
            if !self.rest().is_empty() && !self.rest().starts_with('<') {
                return self.fault("text outside of all elements");
            }
            return Ok(());
        }
        self.go(upto);
        Ok(())
    }

    fn name(&mut self) -> Result<&'a str, String> {
        let rest = self.rest();
        let length = rest.find(|c| !name_char(c)).unwrap_or(rest.len());
        if length == 0 {
            return self.fault("a name is due");
        }
        self.go(length);
        Ok(&rest[..length])
    }

    fn end_tag(&mut self) -> Result<(), String> {
        let (line, before) = (self.line, self.before());
        self.go(2);
        let name = self.name()?;
        self.blanks();
        if !self.rest().starts_with('>') {
            return self.fault("> is due");
        }
        if self.open.pop() != Some(name) {
            return Err(placed(line, before, &format!("{} ends and is not open", short(name))));
        }
        self.go(1);
        self.ended = self.open.is_empty();
        Ok(())
    }

    fn start_tag(&mut self) -> Result<Element<'a>, String> {
        let (line, before) = (self.line, self.before());
        if self.ended {
            return self.fault("a second root");
        }
        self.go(1);
        let name = self.name()?;
        let mut attributes: Vec<(&str, String)> = Vec::new();
        loop {
            let start = self.at;
            self.blanks();
            if self.rest().starts_with("/>") {
                self.go(2);
                self.ended = self.open.is_empty();
                break;
            }
            if self.rest().starts_with('>') {
                self.go(1);
                self.open.push(name);
                if self.open.len() > DEEPEST {
                    return self.fault(&format!("more than {DEEPEST} elements in each other"));
                }
                break;
            }
            if start == self.at {
                return self.fault("a blank, > or /> is due");
            }
            if attributes.len() == ATTRIBUTES {
                return self.fault(&format!("more than {ATTRIBUTES} attributes"));
            }
            let attribute = local(self.name()?);
            if attributes.iter().any(|a| a.0.eq_ignore_ascii_case(attribute)) {
                return self.fault(&format!("{} is given twice", short(attribute)));
            }
            attributes.push((attribute, self.value()?));
        }
        Ok(Element { name: local(name), attributes, line, before })
    }

    /// = and a value in quotation marks.
    fn value(&mut self) -> Result<String, String> {
        self.blanks();
        if !self.rest().starts_with('=') {
            return self.fault("= is due");
        }
        self.go(1);
        self.blanks();
        let quote = match self.rest().chars().next() {
            Some(quote @ ('"' | '\'')) => quote,
            _ => return self.fault("a value in quotation marks is due"),
        };
        self.go(1);
        let mut value = String::new();
        loop {
            let rest = self.rest();
            let Some(c) = rest.chars().next() else {
                return self.fault("a value without its end");
            };
            match c {
                c if c == quote => {
                    self.go(1);
                    return Ok(value);
                }
                '<' => return self.fault("< in a value"),
                '&' => value.push(self.entity()?),
                c => {
                    value.push(c);
                    self.go(c.len_utf8());
                }
            }
        }
    }

    fn entity(&mut self) -> Result<char, String> {
        let rest = self.rest();
        let name = rest[1..].split(';').next().filter(|name| rest[1..].len() > name.len());
        let c = match name {
            Some("amp") => Some('&'),
            Some("lt") => Some('<'),
            Some("gt") => Some('>'),
            Some("quot") => Some('"'),
            Some("apos") => Some('\''),
            Some(number) => number.strip_prefix('#').and_then(|number| {
                match number.strip_prefix('x') {
                    Some(digits) => u32::from_str_radix(digits, 16).ok(),
                    None => number.parse().ok(),
                }
                .and_then(char::from_u32)
            }),
            None => None,
        };
        match (c, name) {
            (Some(c), Some(name)) => {
                self.go(name.len() + 2);
                Ok(c)
            }
            _ => self.fault("& and no character's name behind it"),
        }
    }
}

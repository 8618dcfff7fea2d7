//! What is left of a text that is read from the left.

/// What is left of a text.
pub struct Cursor(pub &'static str);

impl Cursor {
    /// Takes this text, if it is next.
    pub fn take_if(&mut self, text: &str) -> bool {
        let rest = self.0.strip_prefix(text);
        self.0 = rest.unwrap_or(self.0);
        rest.is_some()
    }

    /// Takes this text.
    pub fn take(&mut self, text: &str) {
        assert!(self.take_if(text), "no {text} before {}", self.0);
    }

    /// Takes letters, digits, `_` and `-`.
    pub fn word(&mut self) -> &'static str {
        let is_end = |c: char| !c.is_ascii_alphanumeric() && !matches!(c, '_' | '-');
        let (word, rest) = self.0.split_at(self.0.find(is_end).unwrap_or(self.0.len()));
        self.0 = rest;
        word
    }

    /// Takes what parts two items of a list, if it is next.
    pub fn comma(&mut self) {
        self.take_if(", ");
    }

    /// Takes items up to this bracket.
    pub fn list<T>(&mut self, end: &str, mut item: impl FnMut(&mut Cursor) -> T) -> Vec<T> {
        let mut items = Vec::new();
        while !self.take_if(end) {
            items.push(item(self));
            self.comma();
        }
        items
    }

    /// Takes a character, which may be escaped.
    pub fn letter(&mut self) -> char {
        let letter = self.any();
        if letter != '\\' {
            return letter;
        }
        match self.any() {
            'u' => self.code(),
            't' => '\t',
            'n' => '\n',
            'r' => '\r',
            '0' => '\0',
            other => other,
        }
    }

    /// Takes a character as it stands.
    fn any(&mut self) -> char {
        let letter = self.0.chars().next().expect("a character");
        self.0 = &self.0[letter.len_utf8()..];
        letter
    }

    /// Takes a character's code in braces.
    fn code(&mut self) -> char {
        self.take("{");
        let code = u32::from_str_radix(self.word(), 16).expect("a code");
        self.take("}");
        char::from_u32(code).expect("a character")
    }

    /// Takes a text up to its closing quote.
    pub fn quoted(&mut self) -> String {
        let mut text = String::new();
        while !self.take_if("\"") {
            text.push(self.letter());
        }
        text
    }
}

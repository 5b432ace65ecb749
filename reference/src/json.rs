// A small JSON reader, enough for the test vectors. Numbers are whole, from 0 to 2^64 - 1.

pub enum Value {
    Null,
    True,
    False,
    Number(u64),
    Text(String),
    List(Vec<Value>),
    Object(Vec<(String, Value)>),
}

impl Value {
    pub fn number(&self) -> Option<u64> {
        match self {
            Value::Number(number) => Some(*number),
            _ => None,
        }
    }

    pub fn text(&self) -> Option<&str> {
        match self {
            Value::Text(text) => Some(text),
            _ => None,
        }
    }

    pub fn list(&self) -> Option<&[Value]> {
        match self {
            Value::List(items) => Some(items),
            _ => None,
        }
    }
}

/// The members of an object that are still to be read. A reader takes those that it knows by their names and asks at
/// the end whether any is left.
pub struct Members {
    /// What a message has before a member's name.
    prefix: &'static str,
    left: Vec<(String, Value)>,
}

impl Members {
    /// Returns the members of an object, or none for any other value.
    pub fn of(value: Value, prefix: &'static str) -> Option<Members> {
        match value {
            Value::Object(left) => Some(Members { prefix, left }),
            _ => None,
        }
    }

    /// Checks that a member is there and not taken yet.
    pub fn has(&self, name: &str) -> bool {
        self.left.iter().any(|(key, _)| key == name)
    }

    /// Takes a member if it is there.
    pub fn take(&mut self, name: &str) -> Option<Value> {
        let index = self.left.iter().position(|(key, _)| key == name)?;
        Some(self.left.remove(index).1)
    }

    /// Takes a member that must be there, and reads it. It is an error if `read` finds no such thing there as
    /// `what` says.
    pub fn read<T>(
        &mut self,
        name: &str,
        what: &str,
        read: impl Fn(&Value) -> Option<T>,
    ) -> Result<T, String> {
        let value = self.take(name).ok_or_else(|| format!("no {}{name}", self.prefix))?;
        read(&value).ok_or_else(|| format!("{}{name} is not {what}", self.prefix))
    }

    /// Checks that no member is left.
    pub fn end(self) -> Result<(), String> {
        match self.left.first() {
            Some((name, _)) => Err(format!("{}{name} is unknown here", self.prefix)),
            None => Ok(()),
        }
    }
}

/// Reads one JSON value that fills the whole text.
pub fn parse(text: &str) -> Result<Value, String> {
    let mut parser = Parser { bytes: text.as_bytes(), at: 0 };
    let value = parser.value()?;
    parser.blanks();
    if parser.at < parser.bytes.len() {
        return Err(parser.trouble("something follows the value"));
    }
    Ok(value)
}

struct Parser<'a> {
    bytes: &'a [u8],
    at: usize,
}

impl Parser<'_> {
    fn trouble(&self, what: &str) -> String {
        format!("{what} at byte {}", self.at)
    }

    fn peek(&self) -> Option<u8> {
        self.bytes.get(self.at).copied()
    }

    fn blanks(&mut self) {
        while matches!(self.peek(), Some(b' ' | b'\t' | b'\r' | b'\n')) {
            self.at += 1;
        }
    }

    /// Steps over a byte if it is the next one.
    fn skip(&mut self, byte: u8) -> bool {
        let found = self.peek() == Some(byte);
        if found {
            self.at += 1;
        }
        found
    }

    fn value(&mut self) -> Result<Value, String> {
        self.blanks();
        match self.peek() {
            Some(b'{') => self.object(),
            Some(b'[') => self.items(),
            Some(b'"') => Ok(Value::Text(self.string()?)),
            Some(b'0'..=b'9') => self.whole_number(),
            Some(b't') => self.word("true", Value::True),
            Some(b'f') => self.word("false", Value::False),
            Some(b'n') => self.word("null", Value::Null),
            _ => Err(self.trouble("no value")),
        }
    }

    fn word(&mut self, word: &str, value: Value) -> Result<Value, String> {
        if !self.bytes[self.at..].starts_with(word.as_bytes()) {
            return Err(self.trouble("an unknown word"));
        }
        self.at += word.len();
        Ok(value)
    }

    fn whole_number(&mut self) -> Result<Value, String> {
        let mut number: u64 = 0;
        while let Some(digit @ b'0'..=b'9') = self.peek() {
            number = number
                .checked_mul(10)
                .and_then(|number| number.checked_add(u64::from(digit - b'0')))
                .ok_or_else(|| self.trouble("a number of 2^64 or more"))?;
            self.at += 1;
        }
        if matches!(self.peek(), Some(b'.' | b'e' | b'E')) {
            return Err(self.trouble("a number that is not whole"));
        }
        Ok(Value::Number(number))
    }

    fn string(&mut self) -> Result<String, String> {
        self.at += 1;
        let mut text = Vec::new();
        loop {
            let Some(byte) = self.peek() else {
                return Err(self.trouble("a text without end"));
            };
            self.at += 1;
            match byte {
                b'"' => break,
                b'\\' => {
                    let letter = self.escape()?;
                    let mut room = [0; 4];
                    text.extend_from_slice(letter.encode_utf8(&mut room).as_bytes());
                }
                0..=31 => return Err(self.trouble("a control byte in a text")),
                _ => text.push(byte),
            }
        }
        String::from_utf8(text).map_err(|_| self.trouble("a text that is not UTF-8"))
    }

    /// What follows a backslash.
    fn escape(&mut self) -> Result<char, String> {
        let Some(byte) = self.peek() else {
            return Err(self.trouble("a text without end"));
        };
        self.at += 1;
        match byte {
            b'"' => Ok('"'),
            b'\\' => Ok('\\'),
            b'/' => Ok('/'),
            b'b' => Ok('\u{8}'),
            b'f' => Ok('\u{c}'),
            b'n' => Ok('\n'),
            b'r' => Ok('\r'),
            b't' => Ok('\t'),
            b'u' => {
                let first = self.four_digits()?;
                let code = if (0xd800..0xdc00).contains(&first) {
                    if !(self.skip(b'\\') && self.skip(b'u')) {
                        return Err(self.trouble("half a letter"));
                    }
                    let second = self.four_digits()?;
                    if !(0xdc00..0xe000).contains(&second) {
                        return Err(self.trouble("half a letter"));
                    }
                    0x10000 + (first - 0xd800) * 0x400 + (second - 0xdc00)
                } else {
                    first
                };
                char::from_u32(code).ok_or_else(|| self.trouble("no letter"))
            }
            _ => Err(self.trouble("an unknown escape")),
        }
    }

    fn four_digits(&mut self) -> Result<u32, String> {
        let mut number = 0;
        for _ in 0..4 {
            let digit = self.peek().and_then(|byte| char::from(byte).to_digit(16));
            let Some(digit) = digit else {
                return Err(self.trouble("no hexadecimal digit"));
            };
            number = number * 16 + digit;
            self.at += 1;
        }
        Ok(number)
    }

    fn items(&mut self) -> Result<Value, String> {
        self.at += 1;
        let mut items = Vec::new();
        self.blanks();
        if self.skip(b']') {
            return Ok(Value::List(items));
        }
        loop {
            items.push(self.value()?);
            self.blanks();
            if self.skip(b']') {
                return Ok(Value::List(items));
            }
            if !self.skip(b',') {
                return Err(self.trouble("a list without end"));
            }
        }
    }

    fn object(&mut self) -> Result<Value, String> {
        self.at += 1;
        let mut members = Vec::new();
        self.blanks();
        if self.skip(b'}') {
            return Ok(Value::Object(members));
        }
        loop {
            self.blanks();
            if self.peek() != Some(b'"') {
                return Err(self.trouble("a member without a name"));
            }
            let name = self.string()?;
            if members.iter().any(|(key, _)| *key == name) {
                return Err(self.trouble("a name that an earlier member has"));
            }
            self.blanks();
            if !self.skip(b':') {
                return Err(self.trouble("a member without a value"));
            }
            members.push((name, self.value()?));
            self.blanks();
            if self.skip(b'}') {
                return Ok(Value::Object(members));
            }
            if !self.skip(b',') {
                return Err(self.trouble("an object without end"));
            }
        }
    }
}

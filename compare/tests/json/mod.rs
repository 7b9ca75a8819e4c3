//! A tiny JSON reader, enough for the vectors.

#[derive(Clone, Debug, PartialEq)]
pub enum Json {
    Null,
    Number(i64),
    Text(String),
    List(Vec<Json>),
    Object(Vec<(String, Json)>),
}

impl Json {
    /// Reads one value; panics on anything that is none.
    pub fn read(text: &str) -> Json {
        let mut reader = Reader {
            bytes: text.as_bytes(),
            at: 0,
        };
        let value = reader.value();
        reader.skip_space();
        assert_eq!(reader.at, text.len(), "one value only");
        value
    }

    /// A member of an object.
    pub fn get(&self, name: &str) -> &Json {
        let Json::Object(members) = self else {
            panic!("no object: {self:?}");
        };
        let member = members.iter().find(|(member, _)| member == name);
        &member.unwrap_or_else(|| panic!("no {name}")).1
    }

    pub fn number(&self) -> i64 {
        match self {
            Json::Number(number) => *number,
            _ => panic!("no number: {self:?}"),
        }
    }

    pub fn text(&self) -> &str {
        match self {
            Json::Text(text) => text,
            _ => panic!("no text: {self:?}"),
        }
    }

    pub fn list(&self) -> &[Json] {
        match self {
            Json::List(list) => list,
            _ => panic!("no list: {self:?}"),
        }
    }

    pub fn numbers(&self) -> Vec<i64> {
        self.list().iter().map(Json::number).collect()
    }

    /// None for null.
    pub fn optional(&self) -> Option<&Json> {
        (*self != Json::Null).then_some(self)
    }
}

struct Reader<'a> {
    bytes: &'a [u8],
    at: usize,
}

impl Reader<'_> {
    fn skip_space(&mut self) {
        while self.bytes.get(self.at).is_some_and(u8::is_ascii_whitespace) {
            self.at += 1;
        }
    }

    fn peek(&mut self) -> u8 {
        self.skip_space();
        self.bytes[self.at]
    }

    fn take(&mut self, byte: u8) -> bool {
        let found = self.peek() == byte;
        if found {
            self.at += 1;
        }
        found
    }

    fn expect(&mut self, byte: u8) {
        assert!(self.take(byte), "{:?} at {}", byte as char, self.at);
    }

    fn value(&mut self) -> Json {
        match self.peek() {
            b'{' => self.object(),
            b'[' => self.list(),
            b'"' => Json::Text(self.text()),
            b'n' => {
                assert!(self.bytes[self.at..].starts_with(b"null"));
                self.at += 4;
                Json::Null
            }
            _ => self.number(),
        }
    }

    fn object(&mut self) -> Json {
        self.expect(b'{');
        let mut members = Vec::new();
        while !self.take(b'}') {
            if !members.is_empty() {
                self.expect(b',');
            }
            self.skip_space();
            let name = self.text();
            self.expect(b':');
            members.push((name, self.value()));
        }
        Json::Object(members)
    }

    fn list(&mut self) -> Json {
        self.expect(b'[');
        let mut values = Vec::new();
        while !self.take(b']') {
            if !values.is_empty() {
                self.expect(b',');
            }
            values.push(self.value());
        }
        Json::List(values)
    }

    fn number(&mut self) -> Json {
        let first = self.at;
        while matches!(self.bytes.get(self.at), Some(b'-' | b'0'..=b'9')) {
            self.at += 1;
        }
        let digits = std::str::from_utf8(&self.bytes[first..self.at]).unwrap();
        Json::Number(digits.parse().expect("a whole number"))
    }

    fn text(&mut self) -> String {
        self.expect(b'"');
        let mut text = Vec::new();
        loop {
            let byte = self.bytes[self.at];
            self.at += 1;
            match byte {
                b'"' => return String::from_utf8(text).unwrap(),
                b'\\' => {
                    let mut buffer = [0; 4];
                    let escaped = self.escaped().encode_utf8(&mut buffer).as_bytes();
                    text.extend_from_slice(escaped);
                }
                _ => text.push(byte),
            }
        }
    }

    /// The character behind a `\`.
    fn escaped(&mut self) -> char {
        let byte = self.bytes[self.at];
        self.at += 1;
        match byte {
            b'n' => '\n',
            b't' => '\t',
            b'r' => '\r',
            b'u' => {
                let digits = std::str::from_utf8(&self.bytes[self.at..][..4]).unwrap();
                self.at += 4;
                let code = u32::from_str_radix(digits, 16).unwrap();
                char::from_u32(code).expect("no half of a pair")
            }
            _ => byte as char,
        }
    }
}

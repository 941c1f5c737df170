//! JSON as RFC 8259 has it, read strictly: what `./settle --json` prints goes to other programs.

#[derive(Debug, Clone, PartialEq)]
pub enum Value {
    Null,
    Bool(bool),
    /// As it is spelled.
    Number(String),
    Text(String),
    List(Vec<Value>),
    Object(Vec<(String, Value)>),
}

impl Value {
    pub fn field(&self, name: &str) -> Option<&Value> {
        match self {
            Value::Object(fields) => fields
                .iter()
                .find(|(key, _)| key == name)
                .map(|(_, value)| value),
            _ => None,
        }
    }
}

/// One value and nothing after it.
pub fn read(text: &str) -> Result<Value, String> {
    let mut reader = Reader { rest: text };
    let value = reader.value()?;
    match reader.rest {
        "" => Ok(value),
        rest => Err(format!("after the value stands {rest}")),
    }
}

struct Reader<'a> {
    rest: &'a str,
}

impl Reader<'_> {
    fn take(&mut self, text: &str) -> bool {
        match self.rest.strip_prefix(text) {
            Some(rest) => {
                self.rest = rest;
                true
            }
            None => false,
        }
    }

    fn need(&mut self, text: &str) -> Result<(), String> {
        match self.take(text) {
            true => Ok(()),
            false => Err(format!("{text} is missing before {}", self.rest)),
        }
    }

    fn next(&mut self) -> Result<char, String> {
        let c = self.rest.chars().next().ok_or("the text ends too early")?;
        self.rest = &self.rest[c.len_utf8()..];
        Ok(c)
    }

    fn value(&mut self) -> Result<Value, String> {
        if self.take("null") {
            return Ok(Value::Null);
        }
        for truth in [true, false] {
            if self.take(&truth.to_string()) {
                return Ok(Value::Bool(truth));
            }
        }
        match self.rest.chars().next() {
            Some('"') => self.text().map(Value::Text),
            Some('[') => self.list(),
            Some('{') => self.object(),
            _ => self.number(),
        }
    }

    fn list(&mut self) -> Result<Value, String> {
        self.need("[")?;
        let mut items = vec![];
        if self.take("]") {
            return Ok(Value::List(items));
        }
        loop {
            items.push(self.value()?);
            if self.take("]") {
                return Ok(Value::List(items));
            }
            self.need(",")?;
        }
    }

    fn object(&mut self) -> Result<Value, String> {
        self.need("{")?;
        let mut fields: Vec<(String, Value)> = vec![];
        loop {
            let key = self.text()?;
            if fields.iter().any(|(other, _)| *other == key) {
                return Err(format!("{key} stands twice"));
            }
            self.need(":")?;
            fields.push((key, self.value()?));
            if self.take("}") {
                return Ok(Value::Object(fields));
            }
            self.need(",")?;
        }
    }

    fn text(&mut self) -> Result<String, String> {
        self.need("\"")?;
        let mut text = String::new();
        loop {
            match self.next()? {
                '"' => return Ok(text),
                '\\' => text.push(self.escaped()?),
                c if c < ' ' => return Err(format!("a bare control character {:02x}", c as u32)),
                c => text.push(c),
            }
        }
    }

    fn escaped(&mut self) -> Result<char, String> {
        match self.next()? {
            c @ ('"' | '\\') => Ok(c),
            'u' => {
                let digits: String = (0..4).map(|_| self.next()).collect::<Result<_, _>>()?;
                let number = u32::from_str_radix(&digits, 16).map_err(|_| digits.clone())?;
                char::from_u32(number).ok_or(digits)
            }
            c => Err(format!("no such escape {c}")),
        }
    }

    /// A minus at most, digits without a zero in front, and a fraction.
    fn number(&mut self) -> Result<Value, String> {
        let end = self
            .rest
            .find(|c: char| !(c.is_ascii_digit() || c == '-' || c == '.'))
            .unwrap_or(self.rest.len());
        let (word, rest) = self.rest.split_at(end);
        let digits = word.strip_prefix('-').unwrap_or(word);
        let (whole, fraction) = digits.split_once('.').unwrap_or((digits, "0"));
        let all = |text: &str| !text.is_empty() && text.bytes().all(|b| b.is_ascii_digit());
        if !all(whole) || !all(fraction) || (whole.len() > 1 && whole.starts_with('0')) {
            return Err(format!("no number at {}", self.rest));
        }
        self.rest = rest;
        Ok(Value::Number(word.to_string()))
    }
}

#[cfg(test)]
mod tests {
    use super::*;

    #[test]
    fn values_are_read_and_others_are_not() {
        let object = read(r#"{"a":[1,-0.5,null,true],"b":"x\"\\\u00ff"}"#).unwrap();
        assert_eq!(object.field("b"), Some(&Value::Text("x\"\\\u{ff}".into())));
        let Some(Value::List(items)) = object.field("a") else {
            panic!("{object:?}")
        };
        assert_eq!(items[1], Value::Number("-0.5".into()));
        assert_eq!(items[3], Value::Bool(true));
        for wrong in [
            "",
            "{",
            "01",
            "1.",
            "-",
            "\"\u{1}\"",
            "\"\\x41\"",
            "[1,]",
            "{\"a\":1,\"a\":2}",
            "1 2",
        ] {
            assert!(read(wrong).is_err(), "{wrong}");
        }
    }
}

//! As much of JSON as an input needs: an object of whole numbers, texts, null and lists of these.

use std::iter::Peekable;
use std::str::Chars;

#[derive(Clone, Debug, PartialEq)]
pub enum Value {
    Null,
    Number(i128),
    Text(String),
    List(Vec<Value>),
}

impl Value {
    pub fn list<T: Copy + Into<i128>>(numbers: &[T]) -> Value {
        Value::List(numbers.iter().map(|&number| Value::Number(number.into())).collect())
    }

    fn written(&self) -> String {
        match self {
            Value::Null => "null".into(),
            Value::Number(number) => number.to_string(),
            Value::Text(text) => quoted(text),
            Value::List(values) => format!("[{}]", values.iter().map(Value::written).collect::<Vec<_>>().join(", ")),
        }
    }
}

/// An object on one line.
pub fn line(entries: &[(&str, Value)]) -> String {
    let entries: Vec<String> = entries.iter().map(|(key, value)| format!("{}: {}", quoted(key), value.written())).collect();
    format!("{{{}}}", entries.join(", "))
}

fn quoted(text: &str) -> String {
    format!("\"{}\"", text.replace('\\', "\\\\").replace('"', "\\\""))
}

/// The keys and values of an object.
pub fn object(text: &str) -> Result<Vec<(String, Value)>, String> {
    let mut reader = Reader { rest: text.chars().peekable() };
    let entries = reader.sequence('{', '}', |reader| {
        let key = reader.text()?;
        reader.sign(':')?;
        Ok((key, reader.value()?))
    })?;
    match reader.next_sign() {
        None => Ok(entries),
        Some(sign) => Err(format!("'{sign}' follows the object")),
    }
}

struct Reader<'a> {
    rest: Peekable<Chars<'a>>,
}

impl Reader<'_> {
    /// The next sign that is no blank, without taking it.
    fn next_sign(&mut self) -> Option<char> {
        while self.rest.next_if(|sign| sign.is_ascii_whitespace()).is_some() {}
        self.rest.peek().copied()
    }

    fn sign(&mut self, wanted: char) -> Result<(), String> {
        match self.next_sign() {
            Some(sign) if sign == wanted => {
                self.rest.next();
                Ok(())
            }
            Some(sign) => Err(format!("'{sign}' stands where '{wanted}' is due")),
            None => Err(format!("the line ends where '{wanted}' is due")),
        }
    }

    /// Entries between two signs, with a comma between any two.
    fn sequence<T>(&mut self, open: char, close: char, entry: impl Fn(&mut Self) -> Result<T, String>) -> Result<Vec<T>, String> {
        self.sign(open)?;
        let mut entries = Vec::new();
        while self.next_sign() != Some(close) {
            if !entries.is_empty() {
                self.sign(',')?;
            }
            entries.push(entry(self)?);
        }
        self.sign(close)?;
        Ok(entries)
    }

    fn value(&mut self) -> Result<Value, String> {
        match self.next_sign() {
            Some('"') => Ok(Value::Text(self.text()?)),
            Some('[') => Ok(Value::List(self.sequence('[', ']', Self::value)?)),
            _ => self.word(),
        }
    }

    fn text(&mut self) -> Result<String, String> {
        self.sign('"')?;
        let mut text = String::new();
        loop {
            match self.rest.next() {
                Some('"') => return Ok(text),
                Some('\\') => text.push(self.rest.next().filter(|sign| "\"\\/".contains(*sign)).ok_or("an escape is not known")?),
                Some(sign) => text.push(sign),
                None => return Err("a text does not end".into()),
            }
        }
    }

    /// A whole number or null.
    fn word(&mut self) -> Result<Value, String> {
        let mut word = String::new();
        while let Some(sign) = self.rest.next_if(|sign| sign.is_ascii_alphanumeric() || "+-.".contains(*sign)) {
            word.push(sign);
        }
        match word.as_str() {
            "null" => Ok(Value::Null),
            _ => word.parse().map(Value::Number).map_err(|_| format!("'{word}' is no value")),
        }
    }
}

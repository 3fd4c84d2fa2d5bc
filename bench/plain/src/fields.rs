//! The fields of JSON objects, taken in byte order of their names.

use crate::fault::{Fault, ValueFault};
use crate::values::{read_moment, Code, Expiry, Gtin};
use serde_json::map::IntoIter;
use serde_json::{Map, Value};

/// A JSON object.
pub type Object = Map<String, Value>;

/// The fields of an object that are still to be taken. All of them are expected ones.
pub struct Fields {
    fields: IntoIter,
    /// Whether the object has all that it may have.
    is_complete: bool,
}

/// The object that bytes are.
pub fn object_of(line: &[u8]) -> Result<Object, Fault> {
    object_in(serde_json::from_slice(line).map_err(|_| Fault::NoJson)?)
}

/// The object that a value is.
pub fn object_in(value: Value) -> Result<Object, Fault> {
    match value {
        Value::Object(object) => Ok(object),
        _ => Err(Fault::NoObject),
    }
}

/// A text, which says what an object is.
pub fn kind_of<'a>(object: &'a Object, name: &'static str) -> Result<&'a str, Fault> {
    match object.get(name) {
        Some(Value::String(text)) => Ok(text),
        Some(_) => Err(Fault::WrongType(name)),
        None => Err(Fault::Missing(name)),
    }
}

impl Fields {
    /// The fields of an object that may have those of these names, which stand in byte order.
    pub fn of(object: Object, names: &[&str]) -> Result<Fields, Fault> {
        let is_complete = object.len() == names.len() && object.keys().eq(names);
        if !is_complete {
            if let Some(unknown) = object.keys().find(|key| !names.contains(&key.as_str())) {
                return Err(Fault::Unknown(unknown.clone()));
            }
        }
        Ok(Fields { fields: object.into_iter(), is_complete })
    }

    /// The next field, which must have this name.
    pub fn value(&mut self, name: &'static str) -> Result<Value, Fault> {
        match self.fields.next() {
            Some((key, value)) if self.is_complete || key == name => Ok(value),
            _ => Err(Fault::Missing(name)),
        }
    }

    /// Passes over a field that was read before.
    pub fn pass(&mut self, name: &'static str) -> Result<(), Fault> {
        self.value(name).map(drop)
    }

    /// A text.
    pub fn text(&mut self, name: &'static str) -> Result<String, Fault> {
        match self.value(name)? {
            Value::String(text) => Ok(text),
            _ => Err(Fault::WrongType(name)),
        }
    }

    /// A text of 1 to 200 bytes.
    pub fn free_text(&mut self, name: &'static str) -> Result<Box<str>, Fault> {
        let text = self.text(name)?;
        if (1..=200).contains(&text.len()) {
            Ok(text.into_boxed_str())
        } else {
            Err(Fault::WrongLength(name))
        }
    }

    /// A text that a reader takes.
    fn read<T>(&mut self, name: &'static str, reader: impl Fn(&[u8]) -> Result<T, ValueFault>) -> Result<T, Fault> {
        reader(self.text(name)?.as_bytes()).map_err(|fault| Fault::WrongValue(name, fault))
    }

    /// A product code.
    pub fn gtin(&mut self, name: &'static str) -> Result<Gtin, Fault> {
        self.read(name, Gtin::read)
    }

    /// A serial or batch number.
    pub fn code(&mut self, name: &'static str) -> Result<Code, Fault> {
        self.read(name, Code::read)
    }

    /// A date.
    pub fn expiry(&mut self, name: &'static str) -> Result<Expiry, Fault> {
        self.read(name, Expiry::read)
    }

    /// A code, or null for none.
    pub fn code_or_null(&mut self, name: &'static str) -> Result<Option<Code>, Fault> {
        match self.value(name)? {
            Value::Null => Ok(None),
            Value::String(text) => {
                Code::read(text.as_bytes()).map(Some).map_err(|fault| Fault::WrongValue(name, fault))
            }
            _ => Err(Fault::WrongType(name)),
        }
    }

    /// A list of 1 to so many texts, each of which a reader takes.
    pub fn list<T>(
        &mut self,
        name: &'static str,
        most: usize,
        reader: impl Fn(&[u8]) -> Result<T, ValueFault>,
    ) -> Result<Box<[T]>, Fault> {
        let Value::Array(members) = self.value(name)? else {
            return Err(Fault::WrongType(name));
        };
        if !members.iter().all(Value::is_string) {
            return Err(Fault::WrongType(name));
        }
        if members.is_empty() || members.len() > most {
            return Err(Fault::WrongNumber(name));
        }
        let mut list = Vec::with_capacity(members.len());
        for text in members.iter().filter_map(Value::as_str) {
            list.push(reader(text.as_bytes()).map_err(|fault| Fault::WrongValue(name, fault))?);
        }
        Ok(list.into_boxed_slice())
    }

    /// A whole number of 64 bits.
    fn whole(&mut self, name: &'static str) -> Result<u64, Fault> {
        self.value(name)?.as_u64().ok_or(Fault::WrongType(name))
    }

    /// A whole number of 32 bits.
    pub fn number(&mut self, name: &'static str) -> Result<u32, Fault> {
        u32::try_from(self.whole(name)?).map_err(|_| Fault::WrongType(name))
    }

    /// Seconds since 1970.
    pub fn moment(&mut self, name: &'static str) -> Result<u64, Fault> {
        read_moment(self.whole(name)?).map_err(|fault| Fault::WrongValue(name, fault))
    }

    /// True or false.
    pub fn truth(&mut self, name: &'static str) -> Result<bool, Fault> {
        self.value(name)?.as_bool().ok_or(Fault::WrongType(name))
    }
}

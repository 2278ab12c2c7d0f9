//! A JSON value as far as any rule asks for it. All of a value is read, so that text which is no JSON is found.

use serde::Deserialize;
use serde::de::{DeserializeSeed, Deserializer, Error, MapAccess, SeqAccess, Visitor};
use std::borrow::Cow;
use std::fmt::{self, Formatter};
use std::ops::Range;

/// Places in the list of all references.
#[derive(Clone, Copy, Default)]
pub struct Span {
    pub start: u32,
    pub end: u32,
}

impl Span {
    pub fn range(self) -> Range<usize> {
        self.start as usize..self.end as usize
    }
}

pub enum Value<'a> {
    Absent,
    Flag,
    Whole(u64),
    Text(Cow<'a, str>),
    /// An array of texts alone; they are the last of the references.
    Texts(Span),
    Object(Box<Members<'a>>),
    Other,
}

/// The members of a nested object.
pub struct Members<'a> {
    pub label_type: Value<'a>,
    pub value: Value<'a>,
    pub values: Value<'a>,
}

/// Reads a value; texts of arrays join these references.
pub struct ValueSeed<'r, 'a>(pub &'r mut Vec<Cow<'a, str>>);

impl<'a> DeserializeSeed<'a> for ValueSeed<'_, 'a> {
    type Value = Value<'a>;

    fn deserialize<D: Deserializer<'a>>(self, deserializer: D) -> Result<Value<'a>, D::Error> {
        deserializer.deserialize_any(self)
    }
}

impl<'a> Visitor<'a> for ValueSeed<'_, 'a> {
    type Value = Value<'a>;

    fn expecting(&self, formatter: &mut Formatter) -> fmt::Result {
        formatter.write_str("a value")
    }

    fn visit_unit<E>(self) -> Result<Value<'a>, E> {
        Ok(Value::Absent)
    }

    fn visit_bool<E>(self, _: bool) -> Result<Value<'a>, E> {
        Ok(Value::Flag)
    }

    fn visit_u64<E>(self, number: u64) -> Result<Value<'a>, E> {
        Ok(Value::Whole(number))
    }

    fn visit_i64<E>(self, _: i64) -> Result<Value<'a>, E> {
        Ok(Value::Other)
    }

    fn visit_f64<E>(self, _: f64) -> Result<Value<'a>, E> {
        Ok(Value::Other)
    }

    fn visit_borrowed_str<E>(self, text: &'a str) -> Result<Value<'a>, E> {
        Ok(Value::Text(Cow::Borrowed(text)))
    }

    fn visit_str<E>(self, text: &str) -> Result<Value<'a>, E> {
        Ok(Value::Text(Cow::Owned(text.to_owned())))
    }

    fn visit_seq<A: SeqAccess<'a>>(self, mut items: A) -> Result<Value<'a>, A::Error> {
        let start = self.0.len();
        let mut all_texts = true;
        while let Some(item) = items.next_element_seed(ValueSeed(self.0))? {
            match item {
                Value::Text(text) if all_texts => self.0.push(text),
                Value::Text(_) => {}
                _ => all_texts = false,
            }
        }
        if !all_texts {
            self.0.truncate(start);
            return Ok(Value::Other);
        }
        let place = |place: usize| u32::try_from(place).map_err(|_| A::Error::custom("too many references"));
        Ok(Value::Texts(Span { start: place(start)?, end: place(self.0.len())? }))
    }

    fn visit_map<A: MapAccess<'a>>(self, mut members: A) -> Result<Value<'a>, A::Error> {
        let mut found = Members { label_type: Value::Absent, value: Value::Absent, values: Value::Absent };
        while let Some(name) = members.next_key::<Name>()? {
            let value = members.next_value_seed(ValueSeed(self.0))?;
            match name {
                Name::LabelType => found.label_type = value,
                Name::Value => found.value = value,
                Name::Values => found.values = value,
                Name::Other => {}
            }
        }
        Ok(Value::Object(Box::new(found)))
    }
}

#[derive(Clone, Copy)]
enum Name {
    LabelType,
    Value,
    Values,
    Other,
}

impl<'a> Deserialize<'a> for Name {
    fn deserialize<D: Deserializer<'a>>(deserializer: D) -> Result<Name, D::Error> {
        deserializer.deserialize_identifier(TextVisitor(|text: &str| match text {
            "labeltype" => Name::LabelType,
            "value" => Name::Value,
            "values" => Name::Values,
            _ => Name::Other,
        }))
    }
}

/// Reads a text and gives what the function makes of it.
pub struct TextVisitor<F>(pub F);

impl<T, F: FnOnce(&str) -> T> Visitor<'_> for TextVisitor<F> {
    type Value = T;

    fn expecting(&self, formatter: &mut Formatter) -> fmt::Result {
        formatter.write_str("a text")
    }

    fn visit_str<E>(self, text: &str) -> Result<T, E> {
        Ok((self.0)(text))
    }
}

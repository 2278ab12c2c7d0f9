//! A file becomes elements.

use crate::Fault;
use crate::element::{Domain, Element, Kind, Labels, RELATION_LIMIT, Relation, Topology};
use crate::labels::LabelSet;
use crate::value::{Span, TextVisitor, Value, ValueSeed};
use serde::Deserialize;
use serde::de::{DeserializeSeed, Deserializer, Error, MapAccess, SeqAccess, Visitor};
use std::borrow::Cow;
use std::fmt::{self, Formatter};
use std::str;

/// Adds the elements of this file. A second member `elements` counts as it should only where the first fits.
pub fn add_file<'a>(topology: &mut Topology<'a>, bytes: &'a [u8]) -> Result<(), Fault> {
    let text = str::from_utf8(bytes).map_err(|_| Fault)?;
    let mut deserializer = serde_json::Deserializer::from_str(text);
    let start = topology.elements.len();
    let head = FileSeed(topology).deserialize(&mut deserializer).map_err(|_| Fault)?;
    deserializer.end().map_err(|_| Fault)?;
    let id = head.close(&mut topology.elements[start..])?;
    topology.domains.push(Domain { id, elements: start..topology.elements.len() });
    Ok(())
}

fn is_id(text: &str) -> bool {
    (1..=255).contains(&text.len()) && text.bytes().all(|byte| (0x21..=0x7E).contains(&byte))
}

fn id_of(value: Value<'_>) -> Result<Cow<'_, str>, Fault> {
    match value {
        Value::Text(text) if is_id(&text) => Ok(text),
        _ => Err(Fault),
    }
}

fn present_id(value: Value<'_>) -> Result<Option<Cow<'_, str>>, Fault> {
    match value {
        Value::Absent => Ok(None),
        value => id_of(value).map(Some),
    }
}

/// The members of a file besides its elements.
struct Head<'a> {
    format: Value<'a>,
    topology: Value<'a>,
    encoding: Value<'a>,
    has_elements: bool,
}

impl<'a> Head<'a> {
    /// Gives the ports that state no encoding that of the file; the id of the topology.
    fn close(self, elements: &mut [Element<'a>]) -> Result<Cow<'a, str>, Fault> {
        if !matches!(self.format, Value::Whole(1)) || !self.has_elements {
            return Err(Fault);
        }
        let encoding = present_id(self.encoding)?.unwrap_or(Cow::Borrowed("none"));
        for port in elements.iter_mut().filter(|element| element.kind.is_port()) {
            port.encoding.get_or_insert_with(|| encoding.clone());
        }
        id_of(self.topology)
    }
}

struct FileSeed<'t, 'a>(&'t mut Topology<'a>);

impl<'a> DeserializeSeed<'a> for FileSeed<'_, 'a> {
    type Value = Head<'a>;

    fn deserialize<D: Deserializer<'a>>(self, deserializer: D) -> Result<Head<'a>, D::Error> {
        deserializer.deserialize_map(self)
    }
}

impl<'a> Visitor<'a> for FileSeed<'_, 'a> {
    type Value = Head<'a>;

    fn expecting(&self, formatter: &mut Formatter) -> fmt::Result {
        formatter.write_str("a file")
    }

    fn visit_map<A: MapAccess<'a>>(self, mut members: A) -> Result<Head<'a>, A::Error> {
        let mut head = Head { format: Value::Absent, topology: Value::Absent, encoding: Value::Absent, has_elements: false };
        let start = self.0.elements.len();
        while let Some(name) = members.next_key::<Cow<str>>()? {
            if name == "elements" {
                self.0.elements.truncate(start);
                members.next_value_seed(ElementsSeed(self.0))?;
                head.has_elements = true;
                continue;
            }
            let value = members.next_value_seed(ValueSeed(&mut self.0.references))?;
            match name.as_ref() {
                "format" => head.format = value,
                "topology" => head.topology = value,
                "encoding" => head.encoding = value,
                _ => {}
            }
        }
        Ok(head)
    }
}

struct ElementsSeed<'t, 'a>(&'t mut Topology<'a>);

impl<'a> DeserializeSeed<'a> for ElementsSeed<'_, 'a> {
    type Value = ();

    fn deserialize<D: Deserializer<'a>>(self, deserializer: D) -> Result<(), D::Error> {
        deserializer.deserialize_seq(self)
    }
}

impl<'a> Visitor<'a> for ElementsSeed<'_, 'a> {
    type Value = ();

    fn expecting(&self, formatter: &mut Formatter) -> fmt::Result {
        formatter.write_str("elements")
    }

    fn visit_seq<A: SeqAccess<'a>>(self, mut items: A) -> Result<(), A::Error> {
        while let Some(element) = items.next_element_seed(ElementSeed(&mut self.0.references))? {
            self.0.elements.extend(element);
        }
        Ok(())
    }
}

/// Reads an element; nothing where it is of a kind that is not read.
struct ElementSeed<'r, 'a>(&'r mut Vec<Cow<'a, str>>);

impl<'a> DeserializeSeed<'a> for ElementSeed<'_, 'a> {
    type Value = Option<Element<'a>>;

    fn deserialize<D: Deserializer<'a>>(self, deserializer: D) -> Result<Self::Value, D::Error> {
        deserializer.deserialize_map(self)
    }
}

impl<'a> Visitor<'a> for ElementSeed<'_, 'a> {
    type Value = Option<Element<'a>>;

    fn expecting(&self, formatter: &mut Formatter) -> fmt::Result {
        formatter.write_str("an element")
    }

    fn visit_map<A: MapAccess<'a>>(self, mut members: A) -> Result<Self::Value, A::Error> {
        let start = self.0.len();
        let mut found = [const { Value::Absent }; NAME_COUNT];
        while let Some(Name(place)) = members.next_key()? {
            let value = members.next_value_seed(ValueSeed(self.0))?;
            if let Some(place) = place {
                found[place] = value;
            }
        }
        let element = element_of(&mut Found(found), self.0).map_err(|Fault| A::Error::custom("an element does not fit"))?;
        if element.is_none() {
            self.0.truncate(start);
        }
        Ok(element)
    }
}

/// The names of members that any element has; relations first, in the order of `Relation`.
const NAMES: [&str; NAME_COUNT] = [
    "hasInboundPort",
    "hasOutboundPort",
    "hasService",
    "isSource",
    "isSink",
    "isAlias",
    "providesPort",
    "type",
    "id",
    "encoding",
    "hasLabel",
    "hasLabelGroup",
    "cost",
    "labelSwapping",
    "adaptationFunction",
];
const NAME_COUNT: usize = 15;
const TYPE: usize = 7;
const ID: usize = 8;
const ENCODING: usize = 9;
const LABEL: usize = 10;
const LABEL_GROUP: usize = 11;
const COST: usize = 12;
const SWAPPING: usize = 13;
const FUNCTION: usize = 14;

/// The place of a name in `NAMES`.
struct Name(Option<usize>);

impl<'a> Deserialize<'a> for Name {
    fn deserialize<D: Deserializer<'a>>(deserializer: D) -> Result<Name, D::Error> {
        deserializer.deserialize_identifier(TextVisitor(|text: &str| Name(NAMES.iter().position(|&name| name == text))))
    }
}

/// The members of an element, by the places of their names.
struct Found<'a>([Value<'a>; NAME_COUNT]);

impl<'a> Found<'a> {
    fn take(&mut self, place: usize) -> Value<'a> {
        std::mem::replace(&mut self.0[place], Value::Absent)
    }

    fn is_absent(&self, place: usize) -> bool {
        matches!(self.0[place], Value::Absent)
    }

    fn spans(&self, relations: &[Relation], references: &[Cow<str>]) -> Result<[Span; RELATION_LIMIT], Fault> {
        let mut spans = [Span::default(); RELATION_LIMIT];
        for (span, &relation) in spans.iter_mut().zip(relations) {
            match self.0[relation as usize] {
                Value::Absent => {}
                Value::Texts(places) if references[places.range()].iter().all(|text| is_id(text)) => *span = places,
                _ => return Err(Fault),
            }
        }
        Ok(spans)
    }

    fn check_cost(&self) -> Result<(), Fault> {
        match self.0[COST] {
            Value::Absent | Value::Whole(_) => Ok(()),
            _ => Err(Fault),
        }
    }

    fn check_swapping(&self) -> Result<(), Fault> {
        match self.0[SWAPPING] {
            Value::Absent | Value::Flag => Ok(()),
            _ => Err(Fault),
        }
    }

    fn label(&mut self) -> Result<Option<Box<Labels<'a>>>, Fault> {
        match self.take(LABEL) {
            Value::Absent => Ok(None),
            Value::Object(members) => {
                let Value::Whole(label) = members.value else { return Err(Fault) };
                let label = u32::try_from(label).map_err(|_| Fault)?;
                let label_type = id_of(members.label_type)?;
                Ok(Some(Box::new(Labels { label_type, set: LabelSet::single(label) })))
            }
            _ => Err(Fault),
        }
    }

    fn label_group(&mut self) -> Result<Option<Box<Labels<'a>>>, Fault> {
        match self.take(LABEL_GROUP) {
            Value::Absent => Ok(None),
            Value::Object(members) => {
                let Value::Text(group) = members.values else { return Err(Fault) };
                let label_type = id_of(members.label_type)?;
                let set = LabelSet::of_group_text(&group).ok_or(Fault)?;
                Ok(Some(Box::new(Labels { label_type, set })))
            }
            _ => Err(Fault),
        }
    }
}

fn element_of<'a>(found: &mut Found<'a>, references: &[Cow<str>]) -> Result<Option<Element<'a>>, Fault> {
    let Value::Text(name) = found.take(TYPE) else { return Err(Fault) };
    let Some(kind) = Kind::of(&name) else { return Ok(None) };
    let id = id_of(found.take(ID))?;
    let encoding = match kind.is_port() || kind.is_link() || kind == Kind::Switching {
        true => present_id(found.take(ENCODING))?,
        false => None,
    };
    let labels = match kind {
        Kind::Port | Kind::Link => found.label()?,
        Kind::PortGroup | Kind::LinkGroup => found.label_group()?,
        _ => None,
    };
    if kind.is_link() || kind.is_service() {
        found.check_cost()?;
    }
    if kind == Kind::Switching {
        found.check_swapping()?;
    }
    if kind.is_adapting() {
        id_of(found.take(FUNCTION))?;
    }
    let borrows_ports =
        kind == Kind::Switching && found.is_absent(Relation::Inbound as usize) && found.is_absent(Relation::Outbound as usize);
    let spans = found.spans(kind.relations(), references)?;
    Ok(Some(Element { kind, borrows_ports, id, encoding, labels, spans }))
}

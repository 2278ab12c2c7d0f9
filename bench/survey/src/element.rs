//! The elements of all files, as they are read.

use crate::labels::LabelSet;
use crate::value::Span;
use std::borrow::Cow;
use std::ops::Range;

#[derive(Clone, Copy, PartialEq, Eq, Debug)]
pub enum Kind {
    Node,
    Port,
    PortGroup,
    Link,
    LinkGroup,
    Switching,
    Adaptation,
    Deadaptation,
    Conversion,
}

impl Kind {
    pub fn of(name: &str) -> Option<Kind> {
        Some(match name {
            "Node" => Kind::Node,
            "Port" => Kind::Port,
            "PortGroup" => Kind::PortGroup,
            "Link" => Kind::Link,
            "LinkGroup" => Kind::LinkGroup,
            "SwitchingService" => Kind::Switching,
            "AdaptationService" => Kind::Adaptation,
            "DeadaptationService" => Kind::Deadaptation,
            "ConversionService" => Kind::Conversion,
            _ => return None,
        })
    }

    pub fn is_port(self) -> bool {
        matches!(self, Kind::Port | Kind::PortGroup)
    }

    pub fn is_link(self) -> bool {
        matches!(self, Kind::Link | Kind::LinkGroup)
    }

    pub fn is_adapting(self) -> bool {
        matches!(self, Kind::Adaptation | Kind::Deadaptation)
    }

    pub fn is_service(self) -> bool {
        self.is_adapting() || matches!(self, Kind::Switching | Kind::Conversion)
    }

    /// The relations that elements of this kind have.
    pub fn relations(self) -> &'static [Relation] {
        use Relation::{Alias, Inbound, Outbound, Provides, Service, Sink, Source};
        match self {
            Kind::Node => &[Inbound, Outbound, Service],
            Kind::Port | Kind::PortGroup => &[Source, Sink, Service, Alias],
            Kind::Link | Kind::LinkGroup => &[],
            Kind::Switching | Kind::Conversion => &[Inbound, Outbound],
            Kind::Adaptation | Kind::Deadaptation => &[Provides],
        }
    }

    /// May this relation of an element of this kind name an element of that kind?
    pub fn may_name(self, relation: Relation, target: Kind) -> bool {
        match relation {
            Relation::Inbound | Relation::Outbound | Relation::Alias | Relation::Provides => target.is_port(),
            Relation::Source | Relation::Sink => target.is_link(),
            Relation::Service if self == Kind::Node => target.is_service(),
            Relation::Service => target.is_adapting(),
        }
    }
}

#[derive(Clone, Copy, PartialEq, Eq, Debug)]
pub enum Relation {
    Inbound,
    Outbound,
    Service,
    Source,
    Sink,
    Alias,
    Provides,
}

/// The most relations that an element has.
pub const RELATION_LIMIT: usize = 4;

/// Labels of one type.
pub struct Labels<'a> {
    pub label_type: Cow<'a, str>,
    pub set: LabelSet,
}

pub struct Element<'a> {
    pub kind: Kind,
    /// A SwitchingService that takes the ports of its Nodes.
    pub borrows_ports: bool,
    pub id: Cow<'a, str>,
    /// Of a port the one that counts, of others the one that it states.
    pub encoding: Option<Cow<'a, str>>,
    pub labels: Option<Box<Labels<'a>>>,
    /// Where the targets of each relation of the kind are.
    pub spans: [Span; RELATION_LIMIT],
}

impl Element<'_> {
    pub fn label_type(&self) -> Option<&str> {
        self.labels.as_deref().map(|labels| labels.label_type.as_ref())
    }

    /// Where the targets of this relation are.
    pub fn span(&self, relation: Relation) -> Range<usize> {
        let place = self.kind.relations().iter().position(|&other| other == relation);
        place.map_or(0..0, |place| self.spans[place].range())
    }
}

/// The elements of one file.
pub struct Domain<'a> {
    pub id: Cow<'a, str>,
    pub elements: Range<usize>,
}

#[derive(Default)]
pub struct Topology<'a> {
    pub domains: Vec<Domain<'a>>,
    pub elements: Vec<Element<'a>>,
    /// The targets of all relations.
    pub references: Vec<Cow<'a, str>>,
}

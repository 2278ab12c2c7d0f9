//! Encodings and label types are equal in each class, at each link and at each SwitchingService.

use crate::Fault;
use crate::classes::Classes;
use crate::element::{Element, Kind, Relation, Topology};
use crate::merge::Network;

/// The number of no port.
const NONE: u32 = u32::MAX;

pub fn check(topology: &Topology, network: &Network, classes: &Classes) -> Result<(), Fault> {
    check_classes(topology, classes)?;
    let mut joints = Joints { elements: &topology.elements, first: vec![NONE; topology.elements.len()] };
    for (number, element) in topology.elements.iter().enumerate() {
        match element.kind {
            Kind::Port | Kind::PortGroup => joints.check_links(network, number)?,
            Kind::Switching => joints.check_ports(network, number)?,
            Kind::Node => joints.check_borrowed(network, element)?,
            _ => {}
        }
    }
    Ok(())
}

fn check_classes(topology: &Topology, classes: &Classes) -> Result<(), Fault> {
    let mut ports = topology.elements.iter().zip(&classes.first).filter(|(element, _)| element.kind.is_port());
    let all_fit = ports.all(|(port, &first)| {
        let first = &topology.elements[first as usize];
        port.encoding == first.encoding && port.label_type() == first.label_type()
    });
    all_fit.then_some(()).ok_or(Fault)
}

/// Links and services with the ports that they join.
struct Joints<'e, 'a> {
    elements: &'e [Element<'a>],
    /// The port of each link or service that was met first.
    first: Vec<u32>,
}

impl Joints<'_, '_> {
    /// The port has what the link or service states, and else what its first port has.
    fn admit(&mut self, joint: usize, port: usize) -> Result<(), Fault> {
        if self.first[joint] == NONE {
            self.first[joint] = port as u32;
        }
        let (first, joint, port) = (&self.elements[self.first[joint] as usize], &self.elements[joint], &self.elements[port]);
        let encoding = joint.encoding.as_ref().or(first.encoding.as_ref());
        let label_type = joint.label_type().or(first.label_type());
        let fits = port.encoding.as_ref() == encoding && port.label_type() == label_type;
        fits.then_some(()).ok_or(Fault)
    }

    fn check_links(&mut self, network: &Network, port: usize) -> Result<(), Fault> {
        for relation in [Relation::Source, Relation::Sink] {
            for link in network.targets(&self.elements[port], relation) {
                self.admit(link, port)?;
            }
        }
        Ok(())
    }

    fn check_ports(&mut self, network: &Network, service: usize) -> Result<(), Fault> {
        for relation in [Relation::Inbound, Relation::Outbound] {
            for port in network.targets(&self.elements[service], relation) {
                self.admit(service, port)?;
            }
        }
        Ok(())
    }

    /// The services of this Node that take its ports.
    fn check_borrowed(&mut self, network: &Network, node: &Element) -> Result<(), Fault> {
        for number in network.targets(node, Relation::Service) {
            let service = &self.elements[number];
            if !service.borrows_ports {
                continue;
            }
            for relation in [Relation::Inbound, Relation::Outbound] {
                for port in network.targets(node, relation) {
                    if service.encoding.is_none() || service.encoding == self.elements[port].encoding {
                        self.admit(number, port)?;
                    }
                }
            }
        }
        Ok(())
    }
}

// The calls by the crate statime's own files and lists: those have no check of a store, no tallies and no answers in words.
#![allow(dead_code, unused)]

mod bmc;
mod config;
mod datastructures;
mod port;
mod ptp_instance;
mod time;

use bmc::acceptable_master::AcceptableMasterList;
use bmc::bmca::{BestAnnounceMessage, Bmca, RecommendedState};
use datastructures::common::{
    ClockAccuracy, ClockIdentity, ClockQuality, PortIdentity, TimeInterval,
};
use datastructures::datasets::InternalDefaultDS;
use datastructures::messages::{AnnounceMessage, Header, Message, MessageBody, SdoId};
use fixed::types::I48F16;
use port::state::PortState;
use time::Duration;

const PORTS: usize = 8;
const LISTED: usize = 16;

/// Any sender is acceptable, or the clocks of a list.
#[derive(Clone, Copy, Debug)]
struct Acceptable(Option<[ClockIdentity; LISTED]>);

impl AcceptableMasterList for Acceptable {
    fn is_acceptable(&self, identity: ClockIdentity) -> bool {
        self.0.is_none_or(|list| list.contains(&identity))
    }
}

/// A message with its TLVs.
pub struct Announce<'a>(Message<'a>);

#[no_mangle]
#[inline(never)]
pub fn crate_read_frame(frame: &[u8]) -> Option<Announce<'_>> {
    Message::deserialize(frame).ok().map(Announce)
}

/// The number of bytes.
#[no_mangle]
#[inline(never)]
pub fn crate_write_announce(announce: &Announce, buffer: &mut [u8]) -> usize {
    announce.0.serialize(buffer).unwrap_or(0)
}

/// The lists of all ports.
#[derive(Clone)]
pub struct Book(Vec<Bmca<Acceptable>>);

fn interval(units: u64) -> TimeInterval {
    TimeInterval(I48F16::from_bits(units as i64))
}

impl Book {
    /// Empty lists: our clock, the list of acceptable clocks if there is one, an interval for each port.
    pub fn new(clock: u64, listed: Option<[u64; LISTED]>, intervals: &[u64]) -> Self {
        let identity = |clock: u64| ClockIdentity(clock.to_be_bytes());
        let acceptable = Acceptable(listed.map(|list| list.map(identity)));
        let ports = intervals.iter().zip(1..).map(|(units, port_number)| {
            let own = PortIdentity {
                clock_identity: identity(clock),
                port_number,
            };
            Bmca::new(acceptable, interval(*units), own)
        });
        Self(ports.collect())
    }

    fn hear(&mut self, port: usize, frame: &[u8]) -> bool {
        match Message::deserialize(frame) {
            Ok(Message {
                header,
                body: MessageBody::Announce(announce),
                ..
            }) => self.0[port].register_announce_message(&header, &announce),
            _ => false,
        }
    }

    /// A message of some age at the end of a master's list, which the frame's sender has or gets; the master counts from 0.
    pub fn add(&mut self, port: usize, master: usize, frame: &[u8], age: u64) {
        self.hear(port, frame);
        let masters = &mut self.0[port].foreign_master_list.foreign_masters;
        let messages = &mut masters[master].announce_messages;
        let newest = messages.last_mut().expect("a master has a message");
        newest.age = interval(age).into();
    }

    /// How many messages are held.
    pub fn held(&self) -> usize {
        let masters = self
            .0
            .iter()
            .flat_map(|port| port.foreign_master_list.foreign_masters.iter());
        masters.map(|master| master.announce_messages.len()).sum()
    }

    pub fn copy_from(&mut self, other: &Self) {
        self.0.copy_from_slice(&other.0);
    }
}

/// Reads a frame and registers it at a port, which counts from 0.
#[no_mangle]
#[inline(never)]
pub fn crate_register(book: &mut Book, port: usize, frame: &[u8]) -> bool {
    book.hear(port, frame)
}

#[no_mangle]
#[inline(never)]
pub fn crate_age(book: &mut Book, step: u64) {
    let step = Duration::from(interval(step));
    for port in &mut book.0 {
        port.step_age(step);
    }
}

/// Our own data.
pub struct Own(InternalDefaultDS);

impl Own {
    pub fn new(
        clock: u64,
        priority_1: u8,
        class: u8,
        accuracy: u8,
        variance: u16,
        priority_2: u8,
    ) -> Self {
        Self(InternalDefaultDS {
            clock_identity: ClockIdentity(clock.to_be_bytes()),
            number_ports: 0,
            clock_quality: ClockQuality {
                clock_class: class,
                clock_accuracy: ClockAccuracy::from_primitive(accuracy),
                offset_scaled_log_variance: variance,
            },
            priority_1,
            priority_2,
            domain_number: 0,
            slave_only: false,
            sdo_id: SdoId::default(),
        })
    }
}

/// The recommended states, port 1 first.
pub struct States([Option<RecommendedState>; PORTS]);

impl States {
    pub fn numbers(&self) -> [u64; PORTS] {
        self.0.each_ref().map(|state| match state {
            None => 0,
            Some(RecommendedState::M1(_)) => 1,
            Some(RecommendedState::M2(_)) => 2,
            Some(RecommendedState::M3(_)) => 3,
            Some(RecommendedState::P1(_)) => 4,
            Some(RecommendedState::P2(_)) => 5,
            Some(RecommendedState::S1(_)) => 6,
        })
    }
}

/// Each port takes its best message, then all states are recommended, as the crate's instance has it. No port listens.
#[no_mangle]
#[inline(never)]
pub fn crate_decide(book: &mut Book, own: &Own) -> States {
    let mut erbests: [Option<BestAnnounceMessage>; PORTS] = [None; PORTS];
    for (erbest, port) in erbests.iter_mut().zip(&mut book.0) {
        *erbest = port.take_best_port_announce_message();
    }
    let ebest = Bmca::<()>::find_best_announce_message(erbests.into_iter().flatten());
    let count = book.0.len();
    States(std::array::from_fn(|port| {
        let state = || {
            Bmca::<()>::calculate_recommended_state(
                &own.0,
                ebest,
                erbests[port],
                &PortState::Master,
            )
        };
        (port < count).then(state).flatten()
    }))
}

// The subcommand books: what the crate holds of the announces of several ports and decides by them, from one fresh start to the next.

use crate::bmc::acceptable_master::AcceptableMasterList;
use crate::bmc::bmca::{BestAnnounceMessage, Bmca, RecommendedState};
use crate::bmc::foreign_master::ForeignMaster;
use crate::datastructures::common::{ClockIdentity, PortIdentity, TimeInterval};
use crate::datastructures::datasets::InternalDefaultDS;
use crate::datastructures::messages::{AnnounceMessage, Header, MessageBody};
use crate::decisions::{best_of, listens, recommended, told, NONE};
use crate::lines::{hex, sign};
use crate::messages::read;
use crate::records::{message_bytes, own_bytes, Rest};
use crate::time::Duration;

/// The most ports, and the most clocks of a list.
pub const MAX_PORTS: usize = 8;
pub const MAX_LISTED: usize = 16;

/// Which senders are acceptable: any, or those of a list.
#[derive(Clone)]
pub enum Acceptable {
    Any,
    Listed(Vec<ClockIdentity>),
}

impl AcceptableMasterList for Acceptable {
    fn is_acceptable(&self, identity: ClockIdentity) -> bool {
        match self {
            Self::Any => true,
            Self::Listed(list) => list.contains(&identity),
        }
    }
}

/// One list of masters for each port, port 1 first; none before the first fresh start.
pub struct Book(Vec<Bmca<Acceptable>>);

impl Book {
    pub fn new() -> Self {
        Self(Vec::new())
    }

    /// A fresh start: our clock, the rule, and an interval for each port.
    pub fn fresh(own: ClockIdentity, rule: &Acceptable, intervals: &[TimeInterval]) -> Self {
        let ports = intervals.iter().zip(1..).map(|(interval, port_number)| {
            let identity = PortIdentity {
                clock_identity: own,
                port_number,
            };
            Bmca::new(rule.clone(), *interval, identity)
        });
        Self(ports.collect())
    }

    /// How many ports there are.
    pub fn count(&self) -> usize {
        self.0.len()
    }

    /// Where a port is found by its number, which is counted from 1.
    pub fn place(&self, number: u8) -> Option<usize> {
        let place = usize::from(number).checked_sub(1)?;
        (place < self.count()).then_some(place)
    }

    /// The identity of a port, which is counted from 0 here and below.
    pub fn identity(&self, port: usize) -> PortIdentity {
        self.0[port].own_port_identity
    }

    /// The masters of a port.
    pub fn masters(&self, port: usize) -> &[ForeignMaster] {
        &self.0[port].foreign_master_list.foreign_masters
    }

    /// The answer to one line, if it has the shape of one.
    pub fn answer(&mut self, line: &[u8]) -> Option<String> {
        let mut rest = Rest(line);
        match rest.byte()? {
            0 => self.start(rest),
            1 => self.register(rest.byte()?, rest.0),
            2 => {
                let step = rest.age()?;
                rest.0.is_empty().then(|| self.age(step))
            }
            3 => rest.0.is_empty().then(|| self.told(in_full)),
            4 => {
                let identity = self.0.first()?.own_port_identity;
                let own = rest.own_of(identity.clock_identity)?;
                let listening = rest.byte()?;
                rest.0.is_empty().then(|| self.decide(&own, listening))
            }
            _ => return None,
        }
        .filter(|_| !self.0.is_empty())
    }

    /// A fresh start: our clock, the rule and its list, and an interval for each port.
    fn start(&mut self, mut rest: Rest) -> Option<String> {
        let own = rest.identity()?;
        let listed = rest.flag()?;
        let count = usize::from(rest.byte()?);
        let list = (0..count).map(|_| rest.identity()).collect::<Option<_>>()?;
        let rule = if listed {
            Acceptable::Listed(list)
        } else {
            Acceptable::Any
        };
        let mut intervals = Vec::new();
        while !rest.0.is_empty() {
            intervals.push(rest.interval()?);
        }
        if count > MAX_LISTED || intervals.len() > MAX_PORTS {
            return None;
        }
        *self = Self::fresh(own, &rule, &intervals);
        Some(format!("00 {}", self.told(in_short)))
    }

    /// A frame at a port: whether the crate says yes, and how many messages it put out.
    fn register(&mut self, number: u8, frame: &[u8]) -> Option<String> {
        let port = self.place(number)?;
        let (header, announce) = match announce(frame) {
            Ok(read) => read,
            Err(refusal) => return Some(refusal.to_string()),
        };
        let held = self.held();
        let (yes, taken) = self.hear(port, &header, &announce);
        let evicted = held + taken - self.held();
        let told = self.told(in_short);
        Some(format!("00 {} {evicted:x} {told}", sign(yes)))
    }

    /// An announce at a port: whether the crate says yes, and how many messages its lists took in.
    pub fn hear(
        &mut self,
        port: usize,
        header: &Header,
        announce: &AnnounceMessage,
    ) -> (bool, usize) {
        let before = self.taken(port);
        let yes = self.0[port].register_announce_message(header, announce);
        (yes, self.taken(port) - before)
    }

    /// A step of age at all ports.
    pub fn step_age(&mut self, step: Duration) {
        for port in &mut self.0 {
            port.step_age(step);
        }
    }

    /// A step of age at all ports: how many messages it put out.
    fn age(&mut self, step: Duration) -> String {
        let held = self.held();
        self.step_age(step);
        let aged_out = held - self.held();
        format!("00 {aged_out:x} {}", self.told(in_short))
    }

    /// The candidates of all ports: port 1 first, within a port from the last master to the first, each
    /// master with two messages or more its newest.
    fn candidates(&self) -> Vec<BestAnnounceMessage> {
        let ports = self.0.iter().enumerate();
        let offered = ports.flat_map(|(port, receiver)| {
            let masters = self.masters(port).iter().rev();
            let offering = masters.filter(|master| master.announce_messages.len() > 1);
            let newest = offering.filter_map(|master| master.announce_messages.last());
            newest.map(|message| BestAnnounceMessage {
                header: message.header,
                message: message.message,
                age: message.age,
                identity: receiver.own_port_identity,
            })
        });
        offered.collect()
    }

    /// A decision: how many candidates there are and the place of the one chosen at once among all, how
    /// many messages it consumed, and for each port its state and what that carries.
    fn decide(&mut self, own: &InternalDefaultDS, listening: u8) -> String {
        let at_once = chosen_at_once(&self.candidates());
        let held = self.held();
        let states = self.states(own, listening);
        let consumed = held - self.held();
        let states = states.map(|state| told(state, |own| hex(&own_bytes(own)), in_short));
        let states = states.collect::<Vec<_>>().join(" ");
        let told = self.told(in_short);
        format!("00 {at_once} {consumed:x} {states} {told}")
    }

    /// The states of a decision, port 1 first. Each port takes its best message first, as the crate's
    /// instance has it.
    pub fn states<'own>(
        &mut self,
        own: &'own InternalDefaultDS,
        listening: u8,
    ) -> impl Iterator<Item = Option<RecommendedState>> + 'own {
        let mut erbests = [None; MAX_PORTS];
        for (erbest, port) in erbests.iter_mut().zip(&mut self.0) {
            *erbest = port.take_best_port_announce_message();
        }
        let ebest = Bmca::<()>::find_best_announce_message(erbests.into_iter().flatten());
        let ports = erbests.into_iter().take(self.count()).zip(1..);
        ports.map(move |(erbest, number)| {
            recommended(own, listens(listening, number), ebest, erbest)
        })
    }

    fn all_masters(&self) -> impl Iterator<Item = &ForeignMaster> {
        (0..self.0.len()).flat_map(|port| self.masters(port))
    }

    /// How many messages are held.
    pub fn held(&self) -> usize {
        self.all_masters()
            .map(|master| master.announce_messages.len())
            .sum()
    }

    /// How many messages the masters that a port holds now have ever taken in.
    fn taken(&self, port: usize) -> usize {
        let masters = self.masters(port).iter();
        masters.map(|master| master.announce_messages.taken()).sum()
    }

    /// All that is held, each message's content in these words.
    fn told(&self, content: fn(&AnnounceMessage) -> String) -> String {
        let mut tokens = Vec::new();
        for port in 0..self.0.len() {
            tokens.push("|".to_string());
            for master in self.masters(port) {
                let identity = master.foreign_master_port_identity;
                let clock = hex(&identity.clock_identity.0);
                tokens.push(format!("{clock}.{:04x}", identity.port_number));
                let messages = master.announce_messages.iter();
                tokens.extend(messages.map(|message| {
                    let (sequence, age) = (message.header.sequence_id, units(message.age));
                    format!("{sequence:04x}:{age:x}:{}", content(&message.message))
                }));
            }
        }
        tokens.join(" ")
    }
}

/// The header and the announce that a frame holds, or the number of the refusal.
pub fn announce(frame: &[u8]) -> Result<(Header, AnnounceMessage), &'static str> {
    let message = read(frame)?;
    match message.body {
        MessageBody::Announce(announce) => Ok((message.header, announce)),
        _ => panic!("another message than an announce is refused"),
    }
}

/// How many candidates there are, and the place of the one that the crate's choice over all of them
/// gives. The records of two candidates differ at least in the sender or in the receiver; were they
/// equal, the last of them would be the chosen one, since the crate's max_by keeps the last.
fn chosen_at_once(candidates: &[BestAnnounceMessage]) -> String {
    let best = best_of(candidates);
    let place = best.and_then(|best| candidates.iter().rposition(|other| *other == best));
    let place = place.map_or(NONE.to_string(), |place| format!("{place:x}"));
    format!("{:x} {place}", candidates.len())
}

/// A length of time in units of 2^-16 ns.
pub fn units(time: Duration) -> u64 {
    TimeInterval::from(time).0.to_bits() as u64
}

/// A message as the hash FNV-1a of 32 bits over its bytes.
fn in_short(message: &AnnounceMessage) -> String {
    let hash = message_bytes(message)
        .iter()
        .fold(0x811c_9dc5_u32, |hash, byte| {
            (hash ^ u32::from(*byte)).wrapping_mul(0x0100_0193)
        });
    format!("{hash:08x}")
}

/// A message as its bytes.
fn in_full(message: &AnnounceMessage) -> String {
    hex(&message_bytes(message))
}

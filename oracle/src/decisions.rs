// The subcommand decisions: the crate's verdicts, choices and recommended states.

use crate::bmc::bmca::{BestAnnounceMessage, Bmca, RecommendedState};
use crate::bmc::dataset_comparison::{ComparisonDataset, DatasetOrdering};
use crate::datastructures::datasets::InternalDefaultDS;
use crate::datastructures::messages::AnnounceMessage;
use crate::lines::hex;
use crate::port::state::PortState;
use crate::records::{message_bytes, own_bytes, Rest};

/// The ports of a decision.
const PORTS: u16 = 8;

/// What stands for none.
pub const NONE: &str = "-";

/// The answer to one line, if it has the shape of a question.
pub fn answer(line: &[u8]) -> Option<String> {
    let mut rest = Rest(line);
    let answer = match rest.byte()? {
        0 => verdict(rest.set()?.compare(&rest.set()?)),
        1 => verdict(ComparisonDataset::from_own_data(&rest.own()?).compare(&rest.set()?)),
        2 => place(&best_of(&rest.candidates()?)),
        3 => decision(&rest.own()?, rest.byte()?, &rest.candidates()?)?,
        4 => state(&rest.own()?, rest.flag()?, rest.option()?, rest.option()?),
        _ => return None,
    };
    rest.0.is_empty().then_some(answer)
}

fn verdict(ordering: DatasetOrdering) -> String {
    format!("{:02x}", ordering as u8)
}

/// The best candidate.
pub fn best_of(candidates: &[BestAnnounceMessage]) -> Option<BestAnnounceMessage> {
    Bmca::<()>::find_best_announce_message(candidates.iter().copied())
}

/// The place of a candidate in its line.
fn place(candidate: &Option<BestAnnounceMessage>) -> String {
    candidate.as_ref().map_or(NONE.to_string(), |best| {
        format!("{:02x}", best.header.sequence_id)
    })
}

/// The choice at once, Ebest, and for each port its Erbest and its recommended state. The
/// candidates stand in the order of their ports.
fn decision(
    own: &InternalDefaultDS,
    listening: u8,
    candidates: &[BestAnnounceMessage],
) -> Option<String> {
    let port = |candidate: &BestAnnounceMessage| candidate.identity.port_number;
    let known = |candidate: &BestAnnounceMessage| (1..=PORTS).contains(&port(candidate));
    if !candidates.iter().all(known) || !candidates.is_sorted_by_key(port) {
        return None;
    }
    let erbests: Vec<_> = candidates
        .chunk_by(|first, second| port(first) == port(second))
        .filter_map(best_of)
        .collect();
    let ebest = best_of(&erbests);
    let mut tokens = vec![place(&best_of(candidates)), place(&ebest)];
    for number in 1..=PORTS {
        let erbest = erbests.iter().copied().find(|best| port(best) == number);
        tokens.push(place(&erbest));
        tokens.push(told(
            recommended(own, listens(listening, number), ebest, erbest),
            |own| hex(&[own.priority_1, own.clock_quality.clock_class]),
            |message| format!("{:04x}", message.header.sequence_id),
        ));
    }
    Some(tokens.join(" "))
}

/// Whether a port, which is counted from 1, listens.
pub fn listens(listening: u8, port: u16) -> bool {
    listening >> (port - 1) & 1 == 1
}

/// The recommended state of one port, with all that it carries.
fn state(
    own: &InternalDefaultDS,
    listens: bool,
    ebest: Option<BestAnnounceMessage>,
    erbest: Option<BestAnnounceMessage>,
) -> String {
    told(
        recommended(own, listens, ebest, erbest),
        |own| hex(&own_bytes(own)),
        |message| hex(&message_bytes(message)),
    )
}

pub fn recommended(
    own: &InternalDefaultDS,
    listens: bool,
    ebest: Option<BestAnnounceMessage>,
    erbest: Option<BestAnnounceMessage>,
) -> Option<RecommendedState> {
    let port_state = if listens {
        PortState::Listening
    } else {
        PortState::Master
    };
    Bmca::<()>::calculate_recommended_state(own, ebest, erbest, &port_state)
}

/// The number of a state and what it carries in these words.
pub fn told(
    state: Option<RecommendedState>,
    own: fn(&InternalDefaultDS) -> String,
    message: fn(&AnnounceMessage) -> String,
) -> String {
    use RecommendedState::*;
    let carried = match &state {
        None => NONE.to_string(),
        Some(M1(data) | M2(data)) => own(data),
        Some(M3(best) | P1(best) | P2(best) | S1(best)) => message(best),
    };
    format!("{:02x} {carried}", number(&state))
}

/// The number of a state, 0 where the port stays as it is.
pub fn number(state: &Option<RecommendedState>) -> u8 {
    match state {
        None => 0,
        Some(RecommendedState::M1(_)) => 1,
        Some(RecommendedState::M2(_)) => 2,
        Some(RecommendedState::M3(_)) => 3,
        Some(RecommendedState::P1(_)) => 4,
        Some(RecommendedState::P2(_)) => 5,
        Some(RecommendedState::S1(_)) => 6,
    }
}

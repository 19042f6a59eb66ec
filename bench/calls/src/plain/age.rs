//! Ageing.
use super::store::*;
use super::*;

/// A master's messages older, the ones too old let go: how many.
fn age_master(master: &mut Master, step: u64, limit: u64) -> u64 {
    let mut gone = 0;
    for k in 0..master[3] {
        let at = slot_at(master, k) + 2;
        master[at] += step;
        // Ages fall along the list, so those that go stand first.
        gone += (master[at] >= limit) as u64;
    }
    master[2] = (master[2] % MESSAGES as u64 + gone) % MESSAGES as u64;
    master[3] -= gone;
    gone
}

/// A port's masters older, the empty ones squeezed out.
fn age_port(port: &mut Port, step: u64) -> u64 {
    let limit = 4 * port[0];
    let (mut gone, mut next) = (0, 0);
    let masters = masters_mut(port);
    for i in 0..masters.len() {
        gone += age_master(&mut masters[i], step, limit);
        if masters[i][3] > 0 {
            if next < i {
                masters[next] = masters[i];
            }
            next += 1;
        }
    }
    port[1] = next as u64;
    gone
}

#[no_mangle]
#[inline(never)]
pub fn plain_age(store: &mut [u64], step: u64, answer: &mut [u64]) -> u32 {
    let Some(answer) = answer.first_chunk_mut::<TALLY_WORDS>() else {
        return SHORT;
    };
    let refused = plain_check(store);
    if refused != DONE {
        return refused;
    }
    if step >= 1 << 62 {
        return LONG_STEP;
    }
    let ports = ports_mut(store).iter_mut();
    let gone = ports.map(|port| age_port(port, step)).sum();
    *answer = [0, gone, 0];
    DONE
}

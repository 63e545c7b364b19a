//! Starts near a slot of their circuit, and what is then to be crossed.

use super::machine::{Machine, Transfer, DATA, INTERRUPT};
use super::quiet::{cycles_to_slot, Prober, Probes, Stir, Trace};
use super::sheets::{Plan, Random};

pub const CYCLE_BEFORE: &str = "start: a cycle before its slot, 1 is crossed";
pub const OWN_CYCLE: &str = "start: in its slot's own cycle, none is crossed";
pub const CYCLE_AFTER: &str = "start: a cycle after its slot, which is passed over";
pub const TURNS_CYCLE: &str = "start: in the turn's cycle, its slot in cycle 0 behind it";

/// How a start now stands to a slot of its circuit; nothing where the slot is not near.
pub fn name_near(offset: u32, now: u32, period: u32) -> Option<&'static str> {
    match now {
        _ if offset == now + 1 => Some(CYCLE_BEFORE),
        _ if offset == now => Some(OWN_CYCLE),
        _ if offset + 1 == now => Some(CYCLE_AFTER),
        _ if now + 1 == period && offset == 0 => Some(TURNS_CYCLE),
        _ => None,
    }
}

/// A right transfer, mostly of few words.
pub fn some_transfer(random: &mut Random, plan: &Plan, circuit: usize) -> Transfer {
    let record = plan.circuits[circuit];
    let most = record.read_length.min(record.receive_length);
    let kind = random.choose(&[DATA, DATA, INTERRUPT]);
    let count = match kind {
        DATA if random.once_in(3) => most,
        DATA => random.between(1, most.min(3)),
        _ => 1,
    };
    let read = record.read_offset + random.between(0, record.read_length - count);
    let write = record.receive_offset + random.between(0, record.receive_length - count);
    Transfer { circuit: circuit as u32, read, write, count, kind }
}

/// What a start calls for where nothing else moves: how many cycles are then crossed.
pub fn check_start<P: Probes>(prober: &mut Prober<P>, trace: &Trace, name: &'static str) -> Result<(), String> {
    let now = &trace.machines[0];
    let crossed = trace.cycles();
    let is_quiet = crossed > 0 || trace.ended_by == Some(Stir::Slot);
    let right = match name {
        CYCLE_BEFORE | TURNS_CYCLE => crossed == 1 || cycles_to_slot(now) == Some(0),
        OWN_CYCLE => crossed == 0,
        CYCLE_AFTER => crossed > 0 || cycles_to_slot(now) == Some(0),
        _ => true,
    };
    if is_quiet && !right {
        return Err(format!("{name}: the second machine crosses {crossed}"));
    }
    let counts = match name {
        CYCLE_BEFORE | TURNS_CYCLE => crossed == 1,
        OWN_CYCLE => is_quiet,
        _ => crossed > 0,
    };
    if counts {
        prober.coverage.met(name);
    }
    Ok(())
}

/// Slots that are passed over because the transfer has ended that the session started.
pub fn note_ended<P: Probes>(prober: &mut Prober<P>, trace: &Trace, started: &[bool]) {
    let now: &Machine = &trace.machines[0];
    let entries = &now.sheet.sheet.schedules[now.clock.schedule as usize].entries;
    let crossed = now.clock.cycle..now.clock.cycle + trace.cycles();
    let ended = |circuit: usize| started[circuit] && now.senders[circuit].left == 0;
    if entries.iter().any(|entry| crossed.contains(&(entry.offset as u32)) && ended(entry.circuit as usize)) {
        prober.coverage.met("slot: of a circuit whose transfer has ended");
    }
}

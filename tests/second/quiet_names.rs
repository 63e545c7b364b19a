//! What the tests of quiet stretches have met, by name, and what they have to meet.

use super::machine::Machine;
use super::quiet::{cycles_to_slot, Prober, Probes, Stir, Trace};

/// Every one of these has to be met so often.
pub const REQUIRED_OF_EACH: u64 = 20;

pub const WANTED: [&str; 68] = [
    "most: 0",
    "most: 1",
    "most: one less than to the turn",
    "most: exactly to the turn",
    "most: one more than to the turn",
    "most: one less than to the next live slot",
    "most: exactly to the next live slot",
    "most: one more than to the next live slot",
    "most: huge",
    "most: 1, the turn is next",
    "most: 1, a live slot is next",
    "most: 0, the turn is next",
    "most: 0, a live slot is next",
    "none: a word in a link register",
    "none: a word in a head register",
    "none: a word in an out register",
    "none: a word in an extra register",
    "none: a packet is being sent",
    "none: a live slot begins",
    "none: a live slot begins in cycle 0",
    "none: a live slot begins beside a dead one",
    "ends: before a live slot",
    "ends: before a slot of two circuits",
    "ends: with the turn",
    "ends: with the turn, a live slot in cycle 0 behind it",
    "stretch: one cycle",
    "stretch: a whole period",
    "stretch: 100 cycles and more",
    "stretch: 1,000 cycles and more",
    "dead slot: passed over",
    "dead slot: in the first cycle",
    "dead slot: in the last cycle before the turn or a live slot",
    "words left: no slot in the schedule in force",
    "words left: the slot of this period has passed",
    "turn: no order",
    "turn: order not due",
    "turn: order due",
    "turn: order due, a longer period",
    "turn: order due, a shorter period",
    "turn: order due for the schedule in force",
    "turn: order one period behind",
    "turn: the number wraps",
    "turn: the number wraps, order due for 0",
    "turn: the number wraps, order not due",
    "turn: order due, a live slot of the new schedule in cycle 0",
    "order: due with the next turn, stretch ends before a live slot",
    "cleared: a landing of the cycle before",
    "held: a latch",
    "held: a packet arriving",
    "carried on: a word beside an empty mark",
    "carried on: a choice beside an empty mark",
    "on long links",
    "on short links",
    "no circuits",
    "unserved circuit",
    "64 circuits",
    "state longer than published",
    "cycles: none",
    "cycles: a whole stretch",
    "cycles: beyond a stretch",
    "cycles: several periods at once",
    "cycles: some carried out, then refused by 20",
    "cycles: refused by 20 at once",
    "rest refused by 12",
    "rest refused by 13",
    "cycles refused by 12",
    "cycles refused by 13",
    "cycles refused by 14",
];

pub const WANTED_IN_SESSIONS: [&str; 14] = [
    "start: a cycle before its slot, 1 is crossed",
    "start: in its slot's own cycle, none is crossed",
    "start: a cycle after its slot, which is passed over",
    "start: in the turn's cycle, its slot in cycle 0 behind it",
    "start: its slot is in no schedule in force",
    "slot: of a circuit whose transfer has ended",
    "order: by a call",
    "order: by hand",
    "order: by a call, switched in a stretch",
    "session: goes on by rest",
    "session: goes on by rest over a turn",
    "session: goes on by rest over a wrap",
    "session: cycles since the last call at once",
    "session: ends in the midst of a transfer",
];

impl<P: Probes> Prober<'_, P> {
    fn met_if(&mut self, holds: bool, name: &str) {
        if holds {
            self.coverage.met(name);
        }
    }

    /// The bounds that `most` is near to; only where the present cycle is quiet.
    pub(super) fn note_most(&mut self, most: u32, turn: u32, slot: Option<u32>, whole: u32) {
        if whole == 0 {
            return;
        }
        let to_slot = slot.unwrap_or(u32::MAX);
        let slot_is_next = whole == to_slot;
        self.met_if(most == 0, "most: 0");
        self.met_if(most == 1, "most: 1");
        self.met_if(most == u32::MAX, "most: huge");
        self.met_if(most == 0 && turn == 1, "most: 0, the turn is next");
        self.met_if(most == 1 && turn == 1, "most: 1, the turn is next");
        self.met_if(most == 0 && to_slot == 1, "most: 0, a live slot is next");
        self.met_if(most == 1 && to_slot == 1, "most: 1, a live slot is next");
        if turn > 2 && whole == turn {
            self.met_if(most == turn - 1, "most: one less than to the turn");
            self.met_if(most == turn, "most: exactly to the turn");
            self.met_if(most == turn + 1, "most: one more than to the turn");
        }
        if to_slot > 2 && slot_is_next {
            self.met_if(most == to_slot - 1, "most: one less than to the next live slot");
            self.met_if(most == to_slot, "most: exactly to the next live slot");
            self.met_if(most == to_slot + 1, "most: one more than to the next live slot");
        }
    }

    pub(super) fn note_cycles(&mut self, count: u32, carried_out: u32, number: u32, whole: u32) {
        self.met_if(count == 0, "cycles: none");
        self.met_if(whole > 1 && count == whole, "cycles: a whole stretch");
        self.met_if(whole > 1 && carried_out > whole, "cycles: beyond a stretch");
        self.met_if(carried_out >= 400, "cycles: several periods at once");
        self.met_if(number == 20 && carried_out > 0, "cycles: some carried out, then refused by 20");
        self.met_if(number == 20 && carried_out == 0, "cycles: refused by 20 at once");
    }

    /// What a stretch is like.
    pub fn note_stretch(&mut self, trace: &Trace, longer_state: bool) {
        let now = &trace.machines[0];
        let whole = trace.cycles();
        let last = &trace.machines[whole as usize];
        if whole == 0 {
            self.note_none(now, trace.ended_by);
            return;
        }
        let entries = &now.sheet.sheet.schedules[now.clock.schedule as usize].entries;
        let cycle = u64::from(now.clock.cycle);
        let slots_in = |machine: &Machine, cycle: u64| {
            let entries = &machine.sheet.sheet.schedules[machine.clock.schedule as usize].entries;
            let live = |circuit: u64| machine.senders[circuit as usize].left > 0;
            entries.iter().filter(|entry| entry.offset == cycle && live(entry.circuit)).count()
        };
        let turned = trace.ended_by.is_none();
        self.met_if(!turned, "ends: before a live slot");
        self.met_if(!turned && slots_in(last, last.clock.cycle.into()) > 1, "ends: before a slot of two circuits");
        self.met_if(turned, "ends: with the turn");
        self.met_if(turned && slots_in(last, 0) > 0, "ends: with the turn, a live slot in cycle 0 behind it");
        self.met_if(whole == 1, "stretch: one cycle");
        self.met_if(cycle == 0 && turned, "stretch: a whole period");
        self.met_if(whole >= 100, "stretch: 100 cycles and more");
        self.met_if(whole >= 1_000, "stretch: 1,000 cycles and more");
        let crossed = cycle..cycle + u64::from(whole);
        self.met_if(entries.iter().any(|entry| crossed.contains(&entry.offset)), "dead slot: passed over");
        self.met_if(entries.iter().any(|entry| entry.offset == cycle), "dead slot: in the first cycle");
        self.met_if(
            entries.iter().any(|entry| entry.offset + 1 == crossed.end),
            "dead slot: in the last cycle before the turn or a live slot",
        );
        let left = |circuit: usize| now.senders[circuit].left > 0;
        let served = |circuit: usize| entries.iter().any(|entry| entry.circuit == circuit as u64);
        let circuits = now.senders.len();
        self.met_if(
            (0..circuits).any(|circuit| left(circuit) && !served(circuit)),
            "words left: no slot in the schedule in force",
        );
        self.met_if(
            cycles_to_slot(now).is_none() && (0..circuits).any(|circuit| left(circuit) && served(circuit)),
            "words left: the slot of this period has passed",
        );
        if turned {
            self.note_turn(now, last, slots_in(last, 0) > 0);
        } else {
            let order = &now.clock.order;
            let due = order.mark == 1 && order.period_number == now.period_number().wrapping_add(1);
            self.met_if(due, "order: due with the next turn, stretch ends before a live slot");
        }
        self.note_registers(now);
        self.met_if(longer_state, "state longer than published");
    }

    fn note_none(&mut self, now: &Machine, stir: Option<Stir>) {
        self.coverage.met(match stir.expect("the turn ends no stretch of no cycles") {
            Stir::Link => "none: a word in a link register",
            Stir::Head => "none: a word in a head register",
            Stir::Out => "none: a word in an out register",
            Stir::Extra => "none: a word in an extra register",
            Stir::Sending => "none: a packet is being sent",
            Stir::Slot => "none: a live slot begins",
        });
        if stir == Some(Stir::Slot) {
            self.met_if(now.clock.cycle == 0, "none: a live slot begins in cycle 0");
            let entries = &now.sheet.sheet.schedules[now.clock.schedule as usize].entries;
            let mut beginning = entries.iter().filter(|entry| entry.offset == u64::from(now.clock.cycle));
            let dead = beginning.any(|entry| now.senders[entry.circuit as usize].left == 0);
            self.met_if(dead, "none: a live slot begins beside a dead one");
        }
    }

    fn note_turn(&mut self, now: &Machine, last: &Machine, live_in_0: bool) {
        let order = &now.clock.order;
        let next = now.period_number().wrapping_add(1);
        let due = order.mark == 1 && order.period_number == next;
        let pending = order.mark == 1 && !due;
        let wraps = next == 0;
        self.met_if(order.mark == 0, "turn: no order");
        self.met_if(pending, "turn: order not due");
        self.met_if(due, "turn: order due");
        let period = |schedule: u32| now.sheet.sheet.schedules[schedule as usize].period;
        let (from, to) = (now.clock.schedule, last.clock.schedule);
        self.met_if(due && period(to) > period(from), "turn: order due, a longer period");
        self.met_if(due && period(to) < period(from), "turn: order due, a shorter period");
        self.met_if(due && from == to, "turn: order due for the schedule in force");
        self.met_if(pending && order.period_number == now.period_number(), "turn: order one period behind");
        self.met_if(wraps, "turn: the number wraps");
        self.met_if(wraps && due, "turn: the number wraps, order due for 0");
        self.met_if(wraps && pending, "turn: the number wraps, order not due");
        self.met_if(due && from != to && live_in_0, "turn: order due, a live slot of the new schedule in cycle 0");
    }

    fn note_registers(&mut self, now: &Machine) {
        let nodes = &now.nodes;
        self.met_if(nodes.iter().any(|node| node.landing.mark == 1), "cleared: a landing of the cycle before");
        let inputs = || nodes.iter().flat_map(|node| &node.inputs);
        self.met_if(inputs().any(|input| input.latch > 0), "held: a latch");
        self.met_if(nodes.iter().any(|node| node.receiver.mark == 1), "held: a packet arriving");
        let cells = nodes.iter().flat_map(|node| node.outputs.into_iter().chain(node.extras));
        let words = cells.chain(inputs().flat_map(|input| [input.link, input.head])).any(|cell| cell.word != 0);
        self.met_if(words, "carried on: a word beside an empty mark");
        self.met_if(inputs().any(|input| input.choice > 0), "carried on: a choice beside an empty mark");
        let sheet = &now.sheet.sheet;
        self.coverage.met(if sheet.long_links { "on long links" } else { "on short links" });
        self.met_if(sheet.circuits.is_empty(), "no circuits");
        self.met_if(sheet.circuits.len() == 64, "64 circuits");
        self.met_if(super::checker::rule26(sheet), "unserved circuit");
    }
}

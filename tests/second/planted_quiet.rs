//! A rest of our own that crosses a stretch at once, and the same with one thing wrong, planted for the self test: each of
//! the wrong ones has to be noticed, the right one not.

use super::lent::{Reader, Row, CYCLE, ROW_WORDS};
use super::machine::{Machine, EMPTY, PORTS};
use super::quiet::{cycles_to_turn, Probes};

#[derive(Clone, Copy, Debug, PartialEq, Eq)]
pub enum WrongRest {
    Nothing,
    /// A stretch is one cycle longer, up to a slot or beyond the turn, or one cycle shorter.
    OneTooLong,
    OneTooShort,
    /// The stretch ends before the turn, or goes on behind it.
    EndsBeforeTurn,
    GoesOnBehindTurn,
    /// An order that is due with the turn is left pending; put in force and not spent; or put in force without a turn.
    MissesOrder,
    LeavesOrderPending,
    SwitchesTooSoon,
    /// Orders are compared by size.
    ComparesBySize,
    /// Slots of circuits with words left are passed over: all, those that begin now, those where a dead one begins too.
    PassesSlots,
    PassesSlotNow,
    PassesSlotBesideDead,
    /// A slot ends the stretch though its circuit has no words left.
    EndsBeforeDeadSlot,
    /// The period's number stays at its largest, or rises without a turn.
    DoesNotWrap,
    CountsNoTurn,
    /// The landing of the cycle before is left there, or only its mark is cleared.
    LeavesLanding,
    ClearsMarkOnly,
    /// A word in such a register is not seen.
    MissesLink,
    MissesHead,
    MissesOut,
    MissesExtra,
    MissesSending,
    /// Latches or packets that arrive are cleared.
    ClearsLatches,
    ClearsReceivers,
    /// Words and choices beside empty marks are left, or cleared at once.
    LeavesFreeFields,
    ClearsFreeFields,
    /// One cycle is crossed where none was asked for; or what was asked for counts for nothing.
    CrossesOneAtLeast,
    IgnoresMost,
    /// What is asked for is taken for a signed number.
    TakesMostAsSigned,
    /// A state that is not sound is crossed by nothing, without its number; or one of its words is changed.
    AnswersNoNumber,
    WritesBeforeRefusing,
    /// Registers of nodes or circuits that the sheet lacks are read, or written.
    ReadsLacking,
    WritesLacking,
    /// The cycles of a run end with the stretch; a refused one is counted; the memory is left as it was.
    RunsOneStretch,
    CountsRefused,
    LeavesMemory,
    /// The memory's length is not tested.
    TakesAnyMemory,
    /// A stretch is declined where a word stands beside an empty mark, or in an extra register that the sheet lacks.
    DeclinesFreeFields,
    DeclinesLackingExtras,
}

/// All that cross something wrong.
pub const WRONG_RESTS: [WrongRest; 36] = {
    use WrongRest::*;
    [
        OneTooLong,
        OneTooShort,
        EndsBeforeTurn,
        GoesOnBehindTurn,
        MissesOrder,
        LeavesOrderPending,
        SwitchesTooSoon,
        ComparesBySize,
        PassesSlots,
        PassesSlotNow,
        PassesSlotBesideDead,
        EndsBeforeDeadSlot,
        DoesNotWrap,
        CountsNoTurn,
        LeavesLanding,
        ClearsMarkOnly,
        MissesLink,
        MissesHead,
        MissesOut,
        MissesExtra,
        MissesSending,
        ClearsLatches,
        ClearsReceivers,
        LeavesFreeFields,
        ClearsFreeFields,
        CrossesOneAtLeast,
        IgnoresMost,
        TakesMostAsSigned,
        AnswersNoNumber,
        WritesBeforeRefusing,
        ReadsLacking,
        WritesLacking,
        RunsOneStretch,
        CountsRefused,
        LeavesMemory,
        TakesAnyMemory,
    ]
};

/// These cross nothing that is not quiet; they are noticed where every quiet stretch has to be crossed.
pub const DECLINING_RESTS: [WrongRest; 2] = [WrongRest::DeclinesFreeFields, WrongRest::DeclinesLackingExtras];

/// Through a router, its link and the receive unit nothing takes longer.
const CYCLES_TO_SETTLE: u32 = 6;

pub struct PlantedRest {
    reader: Reader,
    wrong: WrongRest,
}

impl PlantedRest {
    pub fn new(wrong: WrongRest) -> PlantedRest {
        PlantedRest { reader: Reader::default(), wrong }
    }

    fn is(&self, wrong: WrongRest) -> bool {
        self.wrong == wrong
    }

    /// Whether a word is in a router or being sent.
    fn stirs(&self, machine: &Machine) -> bool {
        let inputs = || machine.nodes.iter().flat_map(|node| &node.inputs);
        let nodes = &machine.nodes;
        (!self.is(WrongRest::MissesLink) && inputs().any(|input| input.link.mark != EMPTY))
            || (!self.is(WrongRest::MissesHead) && inputs().any(|input| input.head.mark != EMPTY))
            || (!self.is(WrongRest::MissesOut)
                && nodes.iter().any(|node| node.outputs.iter().any(|out| out.mark != EMPTY)))
            || (!self.is(WrongRest::MissesExtra)
                && nodes.iter().any(|node| node.extras.iter().any(|extra| extra.mark != EMPTY)))
            || (!self.is(WrongRest::MissesSending) && machine.senders.iter().any(|sender| sender.to_go > 0))
    }

    /// The cycles up to the next slot that ends a stretch.
    fn to_slot(&self, machine: &Machine) -> Option<u32> {
        let entries = &machine.sheet.sheet.schedules[machine.clock.schedule as usize].entries;
        let left = |circuit: u64| machine.senders[circuit as usize].left > 0;
        let beside_dead = |offset: u64| entries.iter().any(|entry| entry.offset == offset && !left(entry.circuit));
        entries
            .iter()
            .filter(|entry| left(entry.circuit) || self.is(WrongRest::EndsBeforeDeadSlot))
            .filter(|entry| !(self.is(WrongRest::PassesSlotBesideDead) && beside_dead(entry.offset)))
            .filter_map(|entry| (entry.offset as u32).checked_sub(machine.clock.cycle))
            .filter(|&ahead| !(self.is(WrongRest::PassesSlotNow) && ahead == 0))
            .filter(|_| !self.is(WrongRest::PassesSlots))
            .min()
    }

    /// How many cycles are crossed.
    fn stretch(&self, machine: &Machine, most: u32) -> u32 {
        if self.stirs(machine) {
            return 0;
        }
        let turn = cycles_to_turn(machine);
        let slot = self.to_slot(machine).unwrap_or(u32::MAX);
        let whole = slot.min(turn);
        let whole = match self.wrong {
            WrongRest::OneTooLong if whole > 0 => whole + 1,
            WrongRest::OneTooShort => whole.saturating_sub(1),
            WrongRest::EndsBeforeTurn if slot > turn => turn - 1,
            WrongRest::GoesOnBehindTurn if slot > turn => turn + 1,
            _ => whole,
        };
        match self.wrong {
            WrongRest::IgnoresMost => whole,
            WrongRest::CrossesOneAtLeast => whole.min(most.max(1)),
            WrongRest::TakesMostAsSigned if most > 1 << 31 => 0,
            _ => whole.min(most),
        }
    }

    /// The registers of the nodes after so many quiet cycles.
    fn settle(&self, machine: &mut Machine, count: u32) {
        let before = machine.clone();
        let mut memory = vec![0; machine.sheet.all_memory_words()];
        for _ in 0..count.min(CYCLES_TO_SETTLE) {
            // A wrong rest may cross what is refused.
            if machine.cycle(&mut memory).is_err() {
                break;
            }
        }
        machine.clock = before.clock.clone();
        machine.senders = before.senders.clone();
        for (node, was) in machine.nodes.iter_mut().zip(&before.nodes) {
            match self.wrong {
                WrongRest::LeavesLanding => node.landing = was.landing,
                WrongRest::ClearsMarkOnly => {
                    node.landing = was.landing;
                    node.landing.mark = 0;
                }
                WrongRest::ClearsReceivers => node.receiver = Default::default(),
                WrongRest::LeavesFreeFields => {
                    node.inputs = was.inputs.clone();
                    (node.outputs, node.extras) = (was.outputs, was.extras);
                }
                WrongRest::ClearsFreeFields => {
                    (node.outputs, node.extras) = Default::default();
                    for input in &mut node.inputs {
                        (input.link, input.head, input.choice) = Default::default();
                    }
                }
                _ => {}
            }
            if self.is(WrongRest::ClearsLatches) {
                node.inputs.iter_mut().for_each(|input| input.latch = 0);
            }
        }
    }

    fn advance_clock(&self, machine: &mut Machine, count: u32) {
        let period = machine.clock.cycle + cycles_to_turn(machine);
        let clock = &mut machine.clock;
        let next = match self.wrong {
            WrongRest::DoesNotWrap => clock.period_number.saturating_add(1),
            _ => clock.period_number.wrapping_add(1),
        };
        let due = match self.wrong {
            WrongRest::ComparesBySize => clock.order.mark == 1 && clock.order.period_number <= next,
            _ => clock.order.mark == 1 && clock.order.period_number == next,
        };
        clock.cycle += count;
        let turns = clock.cycle >= period;
        if turns {
            clock.cycle -= period;
            if !self.is(WrongRest::CountsNoTurn) {
                clock.period_number = next;
            }
        }
        if due && (turns && !self.is(WrongRest::MissesOrder) || self.is(WrongRest::SwitchesTooSoon)) {
            clock.schedule = clock.order.schedule;
            clock.order.mark = u32::from(self.is(WrongRest::LeavesOrderPending));
        }
    }
}

impl Probes for PlantedRest {
    fn rest(&mut self, state: &mut [u32], most: u32) -> u64 {
        let mut machine = match self.reader.from_words(state) {
            Ok(machine) => machine,
            Err(13) if self.is(WrongRest::AnswersNoNumber) => return 0,
            Err(13) if self.is(WrongRest::WritesBeforeRefusing) => {
                state[Row::Clock.at(CYCLE)] ^= 1;
                return 13 << 32;
            }
            Err(number) => return u64::from(number) << 32,
        };
        let ports = PORTS * machine.nodes.len();
        if self.is(WrongRest::ReadsLacking) && (ports..ROW_WORDS).any(|port| state[Row::LinkMark.at(port)] != 0) {
            return 0;
        }
        let stand = |row: Row| (0..ports).any(|port| state[row.at(port)] != 0);
        if self.is(WrongRest::DeclinesFreeFields) && stand(Row::LinkWord)
            || self.is(WrongRest::DeclinesLackingExtras) && !machine.sheet.has_long_links() && stand(Row::ExtraMark)
        {
            return 0;
        }
        let count = self.stretch(&machine, most);
        if count > 0 {
            self.settle(&mut machine, count);
            self.advance_clock(&mut machine, count);
            machine.write_to(state);
            if self.is(WrongRest::WritesLacking) {
                (ports..ROW_WORDS).for_each(|port| state[Row::OutWord.at(port)] = 0);
            }
        }
        u64::from(count)
    }

    fn cycles(&mut self, state: &mut [u32], memory: &mut [u32], count: u32) -> u64 {
        let mut machine = match self.reader.from_words(state) {
            Ok(machine) => machine,
            Err(number) => return u64::from(number) << 32,
        };
        if memory.len() != machine.sheet.all_memory_words() {
            return if self.is(WrongRest::TakesAnyMemory) { 0 } else { 14 << 32 };
        }
        let mut own = memory.to_vec();
        let (mut done, mut number) = (0, 0);
        let most = if self.is(WrongRest::RunsOneStretch) { self.stretch(&machine, count).max(1) } else { count };
        while done < count.min(most) && number == 0 {
            match machine.cycle(&mut own) {
                Ok(()) => done += 1,
                Err(refused) => number = refused,
            }
        }
        if done > 0 {
            machine.write_to(state);
        }
        if !self.is(WrongRest::LeavesMemory) {
            memory.copy_from_slice(&own);
        }
        let counted = done + u32::from(number != 0 && self.is(WrongRest::CountsRefused));
        u64::from(number) << 32 | u64::from(counted)
    }
}

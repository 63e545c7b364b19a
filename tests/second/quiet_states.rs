//! States made by hand for the tests of quiet stretches: a word in every single register in turn, by which nothing may be
//! crossed; every cycle of a period with orders, period numbers near the wrap and circuits with words left or without; those
//! of the tests of states; and registers that decide nothing, and states that are refused (quiet_fields.rs).

use super::calls::{Calls, Second};
use super::hand_made::{hand_made_cycles, hand_made_plan, hand_made_states, rest_in, unserved_states};
use super::lent::{
    Reader, Row, CYCLE, MOVING_WORDS, ORDER_MARK, ORDER_PERIOD, ORDER_SCHEDULE, PERIOD_NUMBER, SCHEDULE,
    SHEET_LENGTH, STATE_WORDS,
};
use super::machine::{Machine, INTERRUPT, PORTS, VERTICAL_SIDES};
use super::pokes::{filled_registers, snapshot, some_pokes, written_over};
use super::quiet::{stir, Prober, Probes, Stir};
use super::quiet_plans::{plan_of, Style};
use super::sessions::LONG_LINKS_FROM;
use super::sheets::{Plan, Random};
use super::words::Words;

/// The first plans of the sessions are on all grids, with links of either kind.
pub(super) const GRIDS_AND_LINKS: u64 = 18;

#[derive(Clone, Copy, Debug)]
pub enum Group {
    EveryRegister,
    RegistersLacking,
    FreeFields,
    Clocks,
    Refused,
    HandMade,
    Poked,
}

pub const GROUPS: [Group; 7] = [
    Group::Refused,
    Group::EveryRegister,
    Group::FreeFields,
    Group::RegistersLacking,
    Group::Clocks,
    Group::HandMade,
    Group::Poked,
];

impl Group {
    /// How many states were as they have to be, or what differs first.
    pub fn run<P: Probes>(self, prober: &mut Prober<P>) -> Result<usize, String> {
        let mut states = States { prober, reader: Reader::default(), random: Random::new(0x5717_0000), count: 0 };
        match self {
            Group::EveryRegister => states.every_register(),
            Group::RegistersLacking => states.registers_lacking(),
            Group::FreeFields => states.free_fields(),
            Group::Clocks => states.clocks(),
            Group::Refused => states.refused(),
            Group::HandMade => states.hand_made(),
            Group::Poked => states.poked(),
        }?;
        Ok(states.count)
    }
}

pub(super) struct States<'a, 'b, P> {
    pub prober: &'a mut Prober<'b, P>,
    pub reader: Reader,
    pub random: Random,
    pub count: usize,
}

/// What a load of the plan leaves, with words of any content elsewhere.
pub(super) fn loaded(plan: &Plan, random: &mut Random, spare: usize) -> Words {
    let memory = (0..plan.nodes() * plan.memory_words).map(|_| random.word()).collect();
    let mut words = Words::new(vec![0xA5A5_A5A5; STATE_WORDS + spare], memory);
    let mut machine = Second::living();
    // A plan that leaves circuits unserved is loaded by hand.
    if machine.load(&plan.words(), &mut words.state, &words.memory) != 0 {
        let sheet = plan.words();
        words.state[..MOVING_WORDS].fill(0);
        words.state[SHEET_LENGTH] = sheet.len() as u32;
        words.state[SHEET_LENGTH + 1..][..sheet.len()].copy_from_slice(&sheet);
    }
    words
}

impl<P: Probes> States<'_, '_, P> {
    /// One state: carried out where it is sound, else refused.
    pub fn probe(&mut self, name: &str, words: &Words, further: u32) -> Result<(), String> {
        let result = match self.reader.machine(&words.state) {
            Ok(machine) => self.prober.probe_state(words, &machine, further),
            Err(_) => self.prober.refused(words, words.all(), 13),
        };
        self.count += 1;
        result.map_err(|what| format!("{name}: {what}"))
    }

    /// The same of a state that is sound and stirred by one thing alone.
    fn probe_stirred(&mut self, words: &Words, wanted: Stir) -> Result<(), String> {
        let machine = self.reader.machine(&words.state).map_err(|broken| format!("{wanted:?}: broken {broken:?}"))?;
        if stir(&machine) != Some(wanted) {
            return Err(format!("made for {wanted:?}, second machine {:?}", stir(&machine)));
        }
        let further = self.random.between(1, 6);
        self.probe(&format!("{wanted:?}"), words, further)
    }

    pub fn some_cycle(&mut self, plan: &Plan) -> [(usize, u32); 2] {
        let schedule = self.random.position(plan.schedules.len());
        let cycle = self.random.between(0, plan.schedules[schedule].period - 1);
        [(Row::Clock.at(SCHEDULE), schedule as u32), (Row::Clock.at(CYCLE), cycle)]
    }

    fn every_register(&mut self) -> Result<(), String> {
        for session in 0..GRIDS_AND_LINKS {
            let plan = plan_of(session);
            let words = loaded(&plan, &mut self.random, 3);
            let stages = [
                (Stir::Link, Row::LinkMark, Row::LinkWord),
                (Stir::Head, Row::HeadMark, Row::HeadWord),
                (Stir::Out, Row::OutMark, Row::OutWord),
                (Stir::Extra, Row::ExtraMark, Row::ExtraWord),
            ];
            for port in 0..PORTS * plan.nodes() as usize {
                for (stage, mark, word) in stages {
                    if stage == Stir::Extra && !(plan.long_links && VERTICAL_SIDES.contains(&(port % PORTS))) {
                        continue;
                    }
                    let kind = self.random.choose(&[0, INTERRUPT]);
                    let mut pokes = self.some_cycle(&plan).to_vec();
                    pokes.extend([
                        (mark.at(port), 1 + self.count as u32 % 3),
                        (word.at(port), kind << 30 | self.random.word() >> 2),
                    ]);
                    // Beside a choice and a latch, or without them: then a payload word is refused by 20.
                    pokes.extend([
                        (Row::Choice.at(port), self.random.between(0, 5)),
                        (Row::Latch.at(port), self.random.between(0, 5)),
                        (Row::ReceiveMark.at(port / PORTS), self.random.between(0, 1)),
                    ]);
                    self.probe_stirred(&written_over(&words, &pokes), stage)?;
                }
            }
            for circuit in 0..plan.circuits.len() {
                let most = plan.circuits[circuit].read_length.min(plan.circuits[circuit].receive_length);
                let left = self.random.between(1, most);
                let mut pokes = rest_in(&plan, circuit, left, self.random.between(1, left));
                pokes.extend(self.some_cycle(&plan));
                self.probe_stirred(&written_over(&words, &pokes), Stir::Sending)?;
            }
        }
        Ok(())
    }

    /// Every cycle of every schedule, with words left or not, orders, and numbers near the wrap.
    fn clocks(&mut self) -> Result<(), String> {
        let sessions = (18..120).filter(|&session| matches!(Style::of(session), Style::Several | Style::Ends));
        for session in sessions.step_by(4) {
            let mut plan = plan_of(session);
            if self.random.once_in(3) && plan.circuits.len() > 1 {
                plan.unserve(self.random.position(plan.circuits.len()));
            }
            let words = loaded(&plan, &mut self.random, 0);
            for (schedule, period) in plan.schedules.iter().map(|schedule| schedule.period).enumerate() {
                for cycle in 0..period {
                    let mut pokes = self.some_clock(&plan);
                    pokes.extend([(Row::Clock.at(SCHEDULE), schedule as u32), (Row::Clock.at(CYCLE), cycle)]);
                    for circuit in 0..plan.circuits.len() {
                        if self.random.once_in(2) {
                            pokes.extend(rest_in(&plan, circuit, 1, 0));
                        }
                    }
                    self.probe("clock", &written_over(&words, &pokes), 4)?;
                }
            }
        }
        Ok(())
    }

    fn some_clock(&mut self, plan: &Plan) -> Vec<(usize, u32)> {
        let number = self.random.choose(&[0, 7, u32::MAX, u32::MAX, u32::MAX - 1]);
        let ahead = self.random.choose(&[1, 1, 1, 2, 0, u32::MAX, 1 << 31]);
        let schedule = self.random.position(plan.schedules.len()) as u32;
        vec![
            (Row::Clock.at(PERIOD_NUMBER), number),
            (Row::Clock.at(ORDER_MARK), u32::from(!self.random.once_in(4))),
            (Row::Clock.at(ORDER_SCHEDULE), schedule),
            (Row::Clock.at(ORDER_PERIOD), number.wrapping_add(ahead)),
        ]
    }

    /// The states that the tests of states were made with.
    fn hand_made(&mut self) -> Result<(), String> {
        let words = loaded(&hand_made_plan(), &mut self.random, 0);
        for made in hand_made_states() {
            self.probe(made.name, &written_over(&words, &made.pokes), 3)?;
        }
        for unserved in unserved_states() {
            let words = loaded(&unserved.plan, &mut self.random, 0);
            self.probe(unserved.made.name, &written_over(&words, &unserved.made.pokes), 3)?;
        }
        for made in hand_made_cycles() {
            let words = loaded(&made.plan, &mut self.random, 0);
            self.probe(made.name, &written_over(&words, &made.pokes), 3)?;
        }
        Ok(())
    }

    /// States from the midst of other sessions, as they are, with pokes, and with every register filled.
    fn poked(&mut self) -> Result<(), String> {
        for session in (0..300).step_by(7).chain((LONG_LINKS_FROM..LONG_LINKS_FROM + 300).step_by(9)) {
            let (words, machine, _) = snapshot(session);
            self.probe("midst of a session", &words, 9)?;
            for _ in 0..10 {
                let mut pokes = some_pokes(&mut self.random, &machine);
                if self.random.once_in(2) {
                    pokes.extend(some_pokes(&mut self.random, &machine));
                }
                self.probe("poked", &written_over(&words, &pokes), 6)?;
            }
            let filled = filled_registers(&mut self.random, &machine);
            self.probe("filled", &written_over(&words, &filled), 6)?;
            self.probe_emptied(&words, &machine)?;
        }
        Ok(())
    }

    /// The same state with nothing on the wires and nothing being sent, so that it is quiet.
    fn probe_emptied(&mut self, words: &Words, machine: &Machine) -> Result<(), String> {
        let marks = [Row::LinkMark, Row::HeadMark, Row::OutMark, Row::ExtraMark];
        let ports = PORTS * machine.nodes.len();
        let mut pokes: Vec<(usize, u32)> =
            marks.iter().flat_map(|row| (0..ports).map(|port| (row.at(port), 0))).collect();
        pokes.extend((0..machine.senders.len()).map(|circuit| (Row::ToGo.at(circuit), 0)));
        self.probe("emptied", &written_over(words, &pokes), 9)
    }
}

//! States made by hand in which registers hold something that decides nothing: those that the sheet lacks, fields beside
//! empty marks, latches and packets that wait, landings of the cycle before. And states that are refused.

use super::lent::{Row, CYCLE, MOVING_WORDS, ORDER_PERIOD, ORDER_SCHEDULE, STATE_WORDS};
use super::machine::{INTERRUPT, PORTS, VERTICAL_SIDES};
use super::pokes::written_over;
use super::quiet::{Probes, Trace};
use super::quiet_plans::{plan_of, Style};
use super::quiet_states::{loaded, States, GRIDS_AND_LINKS};
use super::sheets::{idle_network, Plan};
use super::words::Lent;

impl<P: Probes> States<'_, '_, P> {
    /// Places of the moving words that are no register of the sheet: one in turn, then all of them.
    pub fn registers_lacking(&mut self) -> Result<(), String> {
        let small = (0..GRIDS_AND_LINKS).filter(|&session| Style::of(session) != Style::Longest).map(plan_of);
        for (turn, plan) in [idle_network()].into_iter().chain(small).enumerate() {
            let words = loaded(&plan, &mut self.random, 0);
            let mut machine = self.reader.machine(&words.state).expect("loaded");
            let mut trace = Trace::of(&machine, &words.memory)?;
            let mut written = vec![u32::MAX; STATE_WORDS];
            machine.write_to(&mut written);
            let lacking: Vec<usize> = (0..MOVING_WORDS).filter(|&place| written[place] == u32::MAX).collect();
            for &place in lacking.iter().skip(turn % 4).step_by(4) {
                let poked = written_over(&words, &[(place, self.random.choose(&[1, 1, 2, 3, u32::MAX]))]);
                self.prober
                    .rest_once(&poked, poked.all(), &mut trace)
                    .map_err(|what| format!("place {place}: {what}"))?;
                self.count += 1;
            }
            let all: Vec<(usize, u32)> =
                lacking.iter().map(|&place| (place, self.random.choose(&[1, 2, 3]))).collect();
            self.probe("registers lacking", &written_over(&words, &all), 6)?;
            let mut but_extras = all;
            but_extras.retain(|&(place, _)| place < Row::ExtraMark.at(0));
            self.probe("registers lacking, no extra ones", &written_over(&words, &but_extras), 6)?;
        }
        Ok(())
    }

    /// Registers that are free or held while nothing comes: one in turn, then all of them.
    pub fn free_fields(&mut self) -> Result<(), String> {
        let plans = [idle_network()].into_iter().chain((0..GRIDS_AND_LINKS).map(plan_of));
        for (turn, plan) in plans.enumerate() {
            let words = loaded(&plan, &mut self.random, 0);
            let free = [self.free_registers(&plan), self.held_registers(&plan)].concat();
            let every = if matches!(turn, 0 | 1 | 2 | 9 | 10) { 1 } else { 11 };
            for &poke in free.iter().step_by(every) {
                // At a late cycle too, where the stretch is shorter than the way through a router.
                let late = plan.schedules[0].period - self.random.between(1, 7);
                let cycle = self.random.choose(&[0, late, late]);
                let pokes = [poke, (Row::Clock.at(CYCLE), cycle)];
                self.probe("free field", &written_over(&words, &pokes), 3)?;
            }
            for _ in 0..6 {
                let mut pokes = self.held_registers(&plan);
                pokes.extend(self.some_cycle(&plan));
                self.probe("held fields", &written_over(&words, &pokes), 5)?;
                pokes.extend(self.free_registers(&plan));
                self.probe("free fields", &written_over(&words, &pokes), 5)?;
            }
        }
        Ok(())
    }

    /// What is carried on beside empty marks.
    fn free_registers(&mut self, plan: &Plan) -> Vec<(usize, u32)> {
        let mut free = Vec::new();
        for port in 0..PORTS * plan.nodes() as usize {
            for row in [Row::LinkWord, Row::HeadWord, Row::Choice, Row::OutWord] {
                free.push((row.at(port), self.random.word() | 1));
            }
            if plan.long_links && VERTICAL_SIDES.contains(&(port % PORTS)) {
                free.push((Row::ExtraWord.at(port), self.random.word() | 1));
            }
        }
        free
    }

    /// What stays, and the landings, which do not.
    fn held_registers(&mut self, plan: &Plan) -> Vec<(usize, u32)> {
        let ports = 0..PORTS * plan.nodes() as usize;
        let mut held: Vec<(usize, u32)> =
            ports.map(|port| (Row::Latch.at(port), self.random.between(1, 5))).collect();
        for node in 0..plan.nodes() as usize {
            held.extend([
                (Row::ReceiveKind.at(node), self.random.choose(&[0, INTERRUPT])),
                (Row::ReceiveMark.at(node), 1),
                (Row::ReceiveAddress.at(node), self.random.word()),
                (Row::LandingMark.at(node), 1),
            ]);
            for row in [Row::LandingKind, Row::LandingAddress, Row::LandingWord] {
                held.push((row.at(node), self.random.word()));
            }
        }
        for circuit in 0..plan.circuits.len() {
            held.extend([Row::Read, Row::Write, Row::Kind].map(|row| (row.at(circuit), self.random.word())));
        }
        for place in [ORDER_SCHEDULE, ORDER_PERIOD] {
            held.push((Row::Clock.at(place), self.random.word()));
        }
        held
    }

    /// Short states, states that are not sound, and memories of another length; several at once too.
    pub fn refused(&mut self) -> Result<(), String> {
        for session in 0..GRIDS_AND_LINKS {
            let plan = plan_of(session);
            let words = loaded(&plan, &mut self.random, 0);
            let unsound = written_over(&words, &[(Row::Clock.at(CYCLE), plan.schedules[0].period)]);
            let memory = words.memory.len();
            let [less, right] = [memory - 1, memory];
            for state in [0, 1, MOVING_WORDS, self.random.position(STATE_WORDS), STATE_WORDS - 1] {
                self.prober.refused(&words, Lent { state, memory: right }, 12)?;
                self.prober.refused(&unsound, Lent { state, memory: less }, 12)?;
            }
            for memory in [right, less, 0] {
                self.prober.refused(&unsound, Lent { state: STATE_WORDS, memory }, 13)?;
            }
            for memory in [less, 0] {
                self.prober.refused(&words, Lent { state: STATE_WORDS, memory }, 14)?;
            }
            self.count += 15;
        }
        Ok(())
    }
}

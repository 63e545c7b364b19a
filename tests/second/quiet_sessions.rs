//! Sessions with long quiet stretches, call by call: single cycles of whoever is tested against the second machine, at
//! most points of a session everything about the stretch that begins there, and now and then the session itself goes on by
//! a rest. The cycles since the last call that was no cycle are also carried out at once.

use super::calls::{number_of, Call, Calls, Second};
use super::lent::{Row, ORDER_MARK, ORDER_PERIOD, ORDER_SCHEDULE, PERIOD_NUMBER, STATE_WORDS};
use super::quiet::{Prober, Probes, Trace};
use super::quiet_plans::{plan_of, Style};
use super::quiet_starts::{check_start, name_near, note_ended, some_transfer};
use super::sessions::SPARE_WORDS;
use super::sheets::{Plan, Random};
use super::words::{Lent, Words};

struct Session<'a, 'b, C, P> {
    tested: &'a mut C,
    prober: &'a mut Prober<'b, P>,
    second: Second,
    random: Random,
    plan: Plan,
    style: Style,
    lent: Lent,
    actual: Words,
    expected: Words,
    /// The stretch that begins now, where it is known.
    trace: Option<Trace>,
    /// The words after the last call that was no cycle, and the cycles since.
    since: (Words, u32),
    /// The circuits whose transfer is the session's own.
    started: Vec<bool>,
    ordered_by_call: bool,
    /// How the start was made that directly precedes this point.
    start: Option<&'static str>,
    cycles: u32,
}

/// Plays one session; an error says where it differs.
pub fn play<C: Calls, P: Probes>(tested: &mut C, prober: &mut Prober<P>, session: u64) -> Result<(), String> {
    let plan = plan_of(session);
    let style = Style::of(session);
    let mut random = Random::new(0x0A1E_8000 + session);
    let memory_words = (plan.nodes() * plan.memory_words) as usize;
    let mut any = |count: usize| (0..count).map(|_| random.word()).collect();
    let words = Words::new(any(STATE_WORDS + SPARE_WORDS), any(memory_words));
    let lent = Lent { state: STATE_WORDS + random.choose(&[0, 0, 1, SPARE_WORDS]), memory: memory_words };
    let started = vec![false; plan.circuits.len()];
    let mut session = Session {
        tested,
        prober,
        second: Second::living(),
        random,
        plan,
        style,
        lent,
        since: (words.clone(), 0),
        actual: words.clone(),
        expected: words,
        trace: None,
        started,
        ordered_by_call: false,
        start: None,
        cycles: 0,
    };
    session.play().map_err(|what| format!("cycle {} of the session: {what}", session.cycles))
}

impl<C: Calls, P: Probes> Session<'_, '_, C, P> {
    fn play(&mut self) -> Result<(), String> {
        self.make(&Call::Load { sheet: self.plan.words() }, 0)?;
        if self.random.once_in(3) {
            let number = u32::MAX - self.random.between(0, 2);
            self.write_by_hand(&[(PERIOD_NUMBER, number)])?;
        }
        let budget = match self.style {
            Style::Longest => 2_200,
            Style::Largest => 700,
            _ => 180,
        };
        while self.cycles < budget {
            let acted = self.act()?;
            if acted || self.is_point() {
                self.probe()?;
            }
            self.advance()?;
        }
        self.close_segment()?;
        if self.second.view().senders.iter().any(|sender| sender.left > 0) {
            self.prober.coverage.met("session: ends in the midst of a transfer");
        }
        Ok(())
    }

    /// A call that is no cycle, or one cycle: its answer and every lent word.
    fn make(&mut self, call: &Call, number: u32) -> Result<(), String> {
        let expected = self.expected.make(call, self.lent, &mut self.second);
        let actual = self.actual.make(call, self.lent, self.tested);
        let complaint = |what: String| format!("{}: {what}", call.start_of_text());
        if number_of(expected) != number {
            return Err(complaint(format!("made for {number}, second machine {expected:#x}")));
        }
        if actual != expected {
            return Err(complaint(format!("answered {actual:#x}, second machine {expected:#x}")));
        }
        self.actual.compare(&self.expected).map_err(complaint)?;
        if !matches!(call, Call::Cycle) {
            self.trace = None;
            self.since = (self.actual.clone(), 0);
        }
        Ok(())
    }

    /// Writes registers of the clock by hand, in all that is compared.
    fn write_by_hand(&mut self, places: &[(usize, u32)]) -> Result<(), String> {
        self.close_segment()?;
        for words in [&mut self.actual, &mut self.expected] {
            for &(place, value) in places {
                words.state[Row::Clock.at(place)] = value;
            }
        }
        self.second.take_up(&self.expected.state[..self.lent.state]);
        self.trace = None;
        self.since = (self.actual.clone(), 0);
        Ok(())
    }

    /// The cycles since the last call at once, from the words after it.
    fn close_segment(&mut self) -> Result<(), String> {
        let (words, cycles) = &mut self.since;
        let count = *cycles;
        let (state, memory) = (&mut words.state[..self.lent.state], &mut words.memory[..self.lent.memory]);
        let answer = self.prober.probes.cycles(state, memory, count);
        if answer != u64::from(count) {
            return Err(format!("the last {count} cycles at once: answered {answer:#x}"));
        }
        words.compare(&self.expected).map_err(|what| format!("the last {count} cycles at once: {what}"))?;
        *cycles = 0;
        if count > 1 {
            self.prober.coverage.met("session: cycles since the last call at once");
        }
        Ok(())
    }

    /// Perhaps a call; whether there was one.
    fn act(&mut self) -> Result<bool, String> {
        let Some(call) = self.choose_start().or_else(|| self.choose_other()) else {
            return self.order_by_hand();
        };
        self.close_segment()?;
        self.make(&call, 0)?;
        Ok(true)
    }

    /// A start of a free circuit, mostly near one of its slots.
    fn choose_start(&mut self) -> Option<Call> {
        let machine = self.second.view();
        let schedule = &self.plan.schedules[machine.clock.schedule as usize];
        let (now, period) = (machine.clock.cycle, schedule.period);
        let rarely = match self.style {
            Style::Largest => 150,
            Style::Crowded => 12,
            _ => 2,
        };
        let mut chosen = None;
        for entry in &schedule.entries {
            let circuit = entry.circuit as usize;
            if let (Some(name), false) = (name_near(entry.offset, now, period), machine.is_busy(circuit)) {
                if self.random.once_in(rarely) {
                    chosen = Some((name, circuit));
                }
            }
        }
        let served = |circuit: usize| schedule.entries.iter().any(|entry| entry.circuit as usize == circuit);
        if chosen.is_none() && !self.plan.circuits.is_empty() && self.random.once_in(30) {
            let circuit = self.random.position(self.plan.circuits.len());
            let name = if served(circuit) { "start: anywhere" } else { "start: its slot is in no schedule in force" };
            chosen = (!machine.is_busy(circuit)).then_some((name, circuit));
        }
        let (name, circuit) = chosen?;
        self.start = Some(name);
        self.started[circuit] = true;
        Some(Call::start(some_transfer(&mut self.random, &self.plan, circuit)))
    }

    /// An order or a store.
    fn choose_other(&mut self) -> Option<Call> {
        let clock = &self.second.view().clock;
        if clock.order.mark == 0 && self.random.once_in(24) {
            let schedule = self.random.position(self.plan.schedules.len()) as u32;
            let period_number = clock.period_number.wrapping_add(self.random.choose(&[3, 3, 3, 4, (1 << 31) - 1]));
            self.prober.coverage.met("order: by a call");
            self.ordered_by_call = true;
            return Some(Call::Order { schedule, period_number });
        }
        if self.random.once_in(60) {
            let node = self.random.between(0, self.plan.nodes() - 1);
            let address = self.random.between(0, self.plan.memory_words - 1);
            return Some(Call::Store { node, address, word: self.random.word() });
        }
        None
    }

    /// An order that no call would take: due with the next turn or the one behind it, behind, or pending for long. Or one
    /// is taken back.
    fn order_by_hand(&mut self) -> Result<bool, String> {
        if !self.random.once_in(22) {
            return Ok(false);
        }
        let schedule = self.random.position(self.plan.schedules.len()) as u32;
        let now = self.second.view().period_number();
        let ahead = self.random.choose(&[1, 1, 1, 1, 2, 0, u32::MAX, 1 << 31]);
        let mark = u32::from(!self.random.once_in(6));
        let order = [(ORDER_MARK, mark), (ORDER_SCHEDULE, schedule), (ORDER_PERIOD, now.wrapping_add(ahead))];
        self.write_by_hand(&order)?;
        self.prober.coverage.met("order: by hand");
        self.ordered_by_call = false;
        Ok(true)
    }

    /// Nearly everywhere; the largest sheets take their time.
    fn is_point(&mut self) -> bool {
        self.style != Style::Largest || self.random.once_in(12)
    }

    fn trace(&mut self) -> Result<&mut Trace, String> {
        if self.trace.is_none() {
            self.trace = Some(Trace::of(self.second.view(), &self.expected.memory[..self.lent.memory])?);
        }
        Ok(self.trace.as_mut().expect("just made"))
    }

    fn probe(&mut self) -> Result<(), String> {
        let several_periods = self.style != Style::Largest && self.random.once_in(60);
        let further = if several_periods { 400 } else { self.random.choose(&[1, 2, 4, 9, 20]) };
        self.trace()?;
        let trace = self.trace.as_mut().expect("just made");
        self.prober.note_stretch(trace, self.lent.state > STATE_WORDS);
        note_ended(self.prober, trace, &self.started);
        if let Some(name) = self.start.take() {
            check_start(self.prober, trace, name)?;
        }
        self.prober.probe(&self.actual, self.lent, trace, further)
    }

    /// One cycle, or a rest as far as a point that is worth while.
    fn advance(&mut self) -> Result<(), String> {
        let seldom = matches!(self.style, Style::Longest | Style::Largest);
        let whole = self.trace()?.cycles();
        if whole > 3 && self.random.once_in(if seldom { 1 } else { 9 }) {
            return self.go_on_by_rest(whole);
        }
        self.make(&Call::Cycle, 0)?;
        self.pass(1);
        Ok(())
    }

    fn go_on_by_rest(&mut self, whole: u32) -> Result<(), String> {
        let machine = self.second.view();
        let (now, number) = (machine.clock.cycle, machine.period_number());
        let entries = &self.plan.schedules[machine.clock.schedule as usize].entries;
        let mut targets = vec![1, whole - 1, whole, u32::MAX];
        for entry in entries.iter().filter(|entry| entry.offset > now + 1) {
            let ahead = entry.offset - now;
            targets.extend([ahead - 1, ahead, ahead + 1]);
        }
        let most = self.random.choose(&targets);
        let count = most.min(whole);
        for _ in 0..count {
            let lent = self.lent;
            self.expected.make(&Call::Cycle, lent, &mut self.second);
        }
        let answer = self.prober.probes.rest(&mut self.actual.state[..self.lent.state], most);
        if answer != u64::from(count) {
            return Err(format!("going on by rest, most {most}: answered {answer:#x}, second machine {count}"));
        }
        self.actual.compare(&self.expected).map_err(|what| format!("going on by rest, most {most}: {what}"))?;
        self.prober.coverage.met("session: goes on by rest");
        let after = self.second.view().period_number();
        if after != number {
            self.prober.coverage.met("session: goes on by rest over a turn");
        }
        if after < number {
            self.prober.coverage.met("session: goes on by rest over a wrap");
        }
        self.pass(count);
        Ok(())
    }

    /// So many cycles were carried out.
    fn pass(&mut self, count: u32) {
        self.cycles += count;
        self.since.1 += count;
        let now = self.second.view();
        match &mut self.trace {
            Some(trace) if trace.cycles() > count => trace.go_on(count),
            Some(trace) => {
                let first = &trace.machines[0].clock;
                let switched = trace.cycles() == count && first.order.mark == 1 && now.clock.order.mark == 0;
                if switched && self.ordered_by_call {
                    self.prober.coverage.met("order: by a call, switched in a stretch");
                }
                self.trace = None;
            }
            None => {}
        }
    }
}

//! Forced states: unsound ones of every kind, and sound ones that no call leads to.

use super::{forcible, Generator};
use crate::packet::Pid;
use crate::probe::Call;
use crate::script::{condition_word, kind_word, stage_word, transfer_word};
use crate::state::{
    Buffer, Condition, Descriptor, Fault, Kind, Record, Side, Speed, Stage, State, Toggle,
    Transfer, Wait, RECORD_EVENTS, SYSTEM_EVENTS,
};

/// The calls that refusal 1 can meet.
const JUDGED: [Call; 12] = [
    Call::Configure,
    Call::ConfigureOff,
    Call::Arm,
    Call::Disarm,
    Call::Halt,
    Call::Clear,
    Call::Address,
    Call::RecordEvents,
    Call::SystemEvents,
    Call::Reset,
    Call::Packet,
    Call::Timeout,
];

impl Generator {
    /// Breaks a clause, makes calls, and repairs the state.
    pub(super) fn unsound(&mut self, clause: Fault) {
        let mut calls = JUDGED.to_vec();
        self.random.shuffle(&mut calls);
        if self.random.chance(85) {
            calls.truncate(3);
        }
        self.unsound_calls(clause, &calls);
    }

    pub(super) fn unsound_call(&mut self, call: Call) {
        let clauses: Vec<Fault> = forcible().collect();
        let clause = self.random.pick(&clauses);
        self.unsound_calls(clause, &[call]);
    }

    fn unsound_calls(&mut self, clause: Fault, calls: &[Call]) {
        let Some((saved, broken)) = self.broken(clause) else {
            return;
        };
        self.force_to(&broken);
        for &call in calls {
            self.judged_call(call);
        }
        self.say("state");
        match self.random.below(10) {
            0..=7 => self.force_to(&saved),
            8 => self.refused_start(),
            _ => self.set_up(saved.speed),
        }
        if self.random.chance(40) {
            self.host_step();
        }
    }

    /// A call in a state that is not sound, often with other faults of its own.
    fn judged_call(&mut self, call: Call) {
        let (index, buffer) = (self.edge_index(), self.edge_buffer());
        let line = match call {
            Call::Address => {
                let address = self.random.pick(&[0, 1, 127, 128, 128, 256]);
                format!("address {address}")
            }
            Call::SystemEvents => "events".to_owned(),
            Call::Reset => "reset full".to_owned(),
            Call::Timeout => "timeout".to_owned(),
            Call::Packet => {
                let index = self.live_index().unwrap_or(0);
                let pid = self.random.pick(&[Pid::Out, Pid::In, Pid::Setup, Pid::Sof]);
                let token = self.token_for(pid, index);
                format!("packet {}", self.hex(&token))
            }
            _ => self.record_call(call, index, buffer),
        };
        let lends = matches!(call, Call::Packet | Call::Timeout) && self.random.chance(30);
        if lends {
            self.say("lend 77 1026");
        }
        self.say(&line);
        if lends {
            self.say("lend default");
        }
    }

    /// The state now, and one in which the clause does not hold.
    fn broken(&mut self, clause: Fault) -> Option<(State, State)> {
        for _ in 0..6 {
            let state = self.break_clause(clause);
            if state.judge(&crate::Plain) == Err(clause) {
                return Some((self.state().clone(), state));
            }
        }
        None
    }

    fn break_clause(&mut self, clause: Fault) -> State {
        match clause {
            Fault::OffRecord => self.break_off_record(),
            Fault::Number | Fault::KindAndType | Fault::Maximum | Fault::UnusedToggle => {
                self.break_record(clause)
            }
            Fault::ServedTwice => self.break_served(),
            Fault::Base | Fault::Length | Fault::End | Fault::Multiple | Fault::Shared => {
                self.break_span(clause)
            }
            Fault::Done | Fault::OutUsedEarly | Fault::OutUnusedLate => self.break_done(clause),
            Fault::InUsedEarly | Fault::InUnusedLate => self.break_done(clause),
            Fault::WaitIndex | Fault::WaitSide => self.break_wait(clause),
            Fault::AckBuffer | Fault::AckUnarmed | Fault::AckUsed | Fault::AckLength => {
                self.break_ack(clause)
            }
            _ => {
                let mut state = self.state().clone();
                match clause {
                    Fault::Address => state.address = self.random.pick(&[128, 128, 129, 255]),
                    _ => state.memory = self.random.pick(&[131_073, 131_074, 4_294_967_295]),
                }
                state
            }
        }
    }

    fn break_off_record(&mut self) -> State {
        let mut state = self.state().clone();
        let index = self.off_index().unwrap_or(7);
        let record = &mut state.records[index];
        match self.random.below(11) {
            0 => record.kind = Kind::In,
            1 => record.kind = Kind::Out,
            2 => record.transfer = self.random.pick(&[Transfer::Bulk, Transfer::Interrupt]),
            3 => record.number = 1,
            4 => record.maximum = 8,
            5 => record.next = Buffer::One,
            6 => record.events = 1 << self.random.below(7),
            7 => record.out_toggle = Toggle::Data1,
            8 => record.in_toggle = Toggle::Data1,
            9 => record.buffers[self.random.below(2) as usize] = Some(Descriptor::fresh(0, 0)),
            _ => {
                let live = self.live_index().unwrap_or(index);
                state.records[live].condition = Condition::Off;
            }
        }
        state
    }

    fn break_record(&mut self, clause: Fault) -> State {
        let index = self.wanted(None, |record| {
            clause != Fault::UnusedToggle || record.kind != Kind::Control
        });
        let mut state = self.state().clone();
        let record = &mut state.records[index];
        match clause {
            Fault::Number => record.number = self.random.pick(&[16, 16, 17, 31, 128, 255]),
            Fault::Maximum => {
                record.maximum = self
                    .random
                    .pick(&[0, 1, 7, 8, 9, 63, 64, 65, 512, 513, 1025])
            }
            Fault::UnusedToggle if record.kind == Kind::In => record.out_toggle = Toggle::Data1,
            Fault::UnusedToggle => record.in_toggle = Toggle::Data1,
            _ if record.kind == Kind::Control => {
                record.transfer = self.random.pick(&[Transfer::Bulk, Transfer::Interrupt])
            }
            _ if self.random.chance(50) => record.transfer = Transfer::Control,
            _ => record.kind = Kind::Control,
        }
        state
    }

    fn break_served(&mut self) -> State {
        let side = self.random.pick(&[Side::Out, Side::In]);
        let first = self.wanted(None, |record| record.serves(side));
        let mut others = self.indexes(|record| record.live() && record.serves(side));
        others.retain(|&other| other != first);
        let mut state = self.state().clone();
        if let Some(second) = self.random.any(&others) {
            state.records[second].number = state.records[first].number;
        }
        state
    }

    /// A live record with its ready buffer on that side.
    fn ready_on(&mut self, side: Side, fits: impl Fn(&Record) -> bool) -> (usize, Buffer) {
        let index = self.wanted(None, |record| record.serves(side) && fits(record));
        if !self.waiting() {
            self.make_ready(index, side);
        }
        (index, self.record(index).chosen(side))
    }

    fn break_span(&mut self, clause: Fault) -> State {
        let side = match clause {
            Fault::Multiple => Side::Out,
            _ => self.random.pick(&[Side::Out, Side::In]),
        };
        let (index, buffer) = self.ready_on(side, |_| true);
        let others = self.other_spans(index, buffer);
        let other = self.random.any(&others);
        let mut state = self.state().clone();
        let (memory, maximum) = (state.memory, state.records[index].maximum);
        let Some(armed) = &mut state.records[index].buffers[buffer.index()] else {
            return state;
        };
        match clause {
            Fault::Base => {
                armed.base = self
                    .random
                    .pick(&[131_071, 131_071, 131_072, 4_294_967_295])
            }
            Fault::Length => {
                armed.length = self
                    .random
                    .pick(&[16_384, 16_384, 16_896, 65_536, 4_294_967_295])
            }
            Fault::End if self.random.chance(40) => {
                state.memory = (armed.base + armed.length).saturating_sub(1)
            }
            Fault::End => armed.base = (memory + 1).saturating_sub(armed.length),
            Fault::Multiple => {
                let wrong = [0, maximum + 1, 2 * maximum + 1, maximum - 1];
                let length = self.random.pick(&wrong);
                *armed = Descriptor::fresh(armed.base, length);
                armed.used = length < maximum && self.random.chance(70);
            }
            _ => {
                let Descriptor { base, length, .. } = other.unwrap_or(*armed);
                armed.base = self.random.pick(&[base, (base + length).saturating_sub(1)]);
            }
        }
        state
    }

    fn break_done(&mut self, clause: Fault) -> State {
        let side = match clause {
            Fault::OutUsedEarly | Fault::OutUnusedLate => Side::Out,
            Fault::InUsedEarly | Fault::InUnusedLate => Side::In,
            _ => self.random.pick(&[Side::Out, Side::In]),
        };
        let (index, buffer) = self.ready_on(side, |_| true);
        let mut state = self.state().clone();
        let maximum = state.records[index].maximum;
        let Some(armed) = &mut state.records[index].buffers[buffer.index()] else {
            return state;
        };
        let length = armed.length;
        let late = length.saturating_sub(maximum - 1);
        match clause {
            Fault::Done => armed.done = self.random.pick(&[length + 1, length + 1, 4_294_967_295]),
            Fault::OutUsedEarly => armed.used = true,
            Fault::OutUnusedLate => armed.done = self.random.pick(&[length, late]),
            Fault::InUsedEarly => {
                armed.done = self.random.pick(&[0, length.saturating_sub(1)]);
                armed.used = true;
            }
            _ => armed.done = length,
        }
        state
    }

    fn break_wait(&mut self, clause: Fault) -> State {
        let wrong_side = self.random.pick(&[Side::Out, Side::In]);
        let index = match clause {
            Fault::WaitIndex => {
                let off = self.off_index().unwrap_or(15);
                self.random.pick(&[off, off, 16, 17, 255])
            }
            _ => self.wanted(None, |record| {
                record.kind != Kind::Control && record.serves(wrong_side)
            }),
        };
        let record = index as u8;
        let buffer = self.random.pick(&Buffer::BOTH);
        let waits = [
            Wait::Data {
                record,
                stage: Stage::Out,
            },
            Wait::Data {
                record,
                stage: Stage::Setup,
            },
            Wait::Ack {
                record,
                buffer,
                length: 0,
            },
        ];
        let mut state = self.state().clone();
        state.wait = self.random.pick(&waits);
        state
    }

    fn break_ack(&mut self, clause: Fault) -> State {
        let (index, buffer) = self.ready_on(Side::In, |_| true);
        let other = buffer.other();
        let both = clause == Fault::AckBuffer && self.record(index).buffer(other).is_none();
        if both {
            self.arm(index, other);
        }
        let mut state = self.state().clone();
        state.wait = Wait::Nothing;
        let record = &mut state.records[index];
        if record.kind != Kind::Control {
            record.next = buffer;
        }
        let maximum = record.maximum;
        let Some(armed) = record.buffers[buffer.index()].filter(|armed| !armed.used) else {
            return state;
        };
        let due = maximum.min(armed.left());
        let (mut waited, mut length) = (buffer, due);
        match clause {
            Fault::AckBuffer => {
                waited = other;
                // Right but for the buffer, so that no other clause is broken.
                length = record
                    .buffer(other)
                    .map_or(due, |armed| maximum.min(armed.left()));
            }
            Fault::AckUnarmed => record.buffers[buffer.index()] = None,
            Fault::AckUsed => {
                record.buffers[buffer.index()] = Some(Descriptor {
                    done: armed.length,
                    used: true,
                    ..armed
                });
                length = 0;
            }
            _ => {
                length =
                    self.random
                        .pick(&[due + 1, due.saturating_sub(1), 0, maximum, 4_294_967_295])
            }
        }
        state.wait = Wait::Ack {
            record: index as u8,
            buffer: waited,
            length,
        };
        state
    }

    /// A sound state near this one, often one that no call leads to.
    pub(super) fn twist(&mut self) {
        if self.live_index().is_none() {
            self.set_up(Speed::High);
        }
        for _ in 0..12 {
            let mut state = self.state().clone();
            for _ in 0..self.random.between(1, 4) {
                self.twist_field(&mut state);
            }
            if state.is_sound() && state != *self.state() {
                return self.force_to(&state);
            }
        }
    }

    fn twist_field(&mut self, state: &mut State) {
        let index = self.live_index().unwrap_or(0);
        let record = &mut state.records[index];
        let toggle = self.random.pick(&[Toggle::Data0, Toggle::Data1]);
        match self.random.below(10) {
            0 if record.serves(Side::Out) => record.out_toggle = toggle,
            0 | 1 if record.serves(Side::In) => record.in_toggle = toggle,
            2 => record.next = record.next.other(),
            3 => record.events = self.random.byte() & RECORD_EVENTS,
            4 => record.condition = self.random.pick(&[Condition::Normal, Condition::Halted]),
            5 | 6 => self.twist_done(record),
            7 => state.events = self.random.word() as u32 & SYSTEM_EVENTS,
            _ => state.wait = self.twisted_wait(index, record),
        }
    }

    fn twist_done(&mut self, record: &mut Record) {
        let buffer = self.random.pick(&Buffer::BOTH);
        let side = record.side(buffer);
        let maximum = record.maximum;
        if let Some(armed) = &mut record.buffers[buffer.index()] {
            armed.done = self.random.below(armed.length + 1);
            if self.random.chance(40) {
                armed.done = armed.length;
            }
            armed.used = match side {
                Side::Out => armed.left() < maximum,
                Side::In => armed.left() == 0,
            };
        }
    }

    fn twisted_wait(&mut self, index: usize, record: &Record) -> Wait {
        let buffer = match record.kind {
            Kind::Control => Buffer::One,
            _ => record.next,
        };
        let left = record.buffer(buffer).map_or(0, Descriptor::left);
        let length = record.maximum.min(left);
        let record = index as u8;
        self.random.pick(&[
            Wait::Data {
                record,
                stage: Stage::Out,
            },
            Wait::Data {
                record,
                stage: Stage::Setup,
            },
            Wait::Ack {
                record,
                buffer,
                length,
            },
            Wait::Ack {
                record,
                buffer,
                length,
            },
        ])
    }

    /// Random forced fields, calls on them, and back.
    pub(super) fn fuzz(&mut self) {
        for _ in 0..5 {
            let saved = self.state().clone();
            let line = self.random_force();
            self.say(&line);
            for _ in 0..self.random.between(1, 3) {
                let call = self.random.pick(&JUDGED);
                self.judged_call(call);
            }
            if self.state().speed == saved.speed {
                self.force_to(&saved);
            }
        }
    }

    fn random_force(&mut self) -> String {
        let index = self.live_index().unwrap_or(0);
        let index = self.random.pick(&[index, index, index, 15]);
        let edges = [
            0,
            1,
            8,
            15,
            16,
            64,
            127,
            128,
            255,
            512,
            16_383,
            16_384,
            131_072,
            4_294_967_295u32,
        ];
        let edge = self.random.pick(&edges);
        let bit = self.random.below(2);
        match self.random.below(9) {
            0 => format!("force memory {edge}"),
            1 => format!("force address {edge}"),
            2 => format!("force record {index} number {edge}"),
            3 => format!("force record {index} max {edge}"),
            4 => format!("force record {index} next {bit}"),
            5 => format!("force wait ack {index} {bit} {edge}"),
            6 => format!("force wait data {} out", edge & 0xFF),
            7 => {
                let kind = self.random.pick(&["control", "in", "out"]);
                format!("force record {index} kind {kind}")
            }
            _ => {
                let (base, done) = (self.random.pick(&edges), self.random.pick(&edges));
                format!("force buffer {index} {bit} {base} {edge} {done} {bit}")
            }
        }
    }

    /// Forces every field that differs.
    fn force_to(&mut self, target: &State) {
        for line in differences(self.state(), target) {
            self.say(&line);
        }
    }
}

/// The force lines that lead from one state to another of the same speed.
fn differences(from: &State, to: &State) -> Vec<String> {
    let mut lines = Vec::new();
    if from.memory != to.memory {
        lines.push(format!("force memory {}", to.memory));
    }
    if from.address != to.address {
        lines.push(format!("force address {}", to.address));
    }
    if from.events != to.events {
        lines.push(format!("force events {}", to.events));
    }
    if from.wait != to.wait {
        lines.push(force_wait(&to.wait));
    }
    for (index, (from, to)) in from.records.iter().zip(&to.records).enumerate() {
        record_differences(index, from, to, &mut lines);
    }
    lines
}

fn force_wait(wait: &Wait) -> String {
    match *wait {
        Wait::Nothing => "force wait nothing".to_owned(),
        Wait::Data { record, stage } => format!("force wait data {record} {}", stage_word(stage)),
        Wait::Ack {
            record,
            buffer,
            length,
        } => {
            format!("force wait ack {record} {} {length}", buffer.index())
        }
    }
}

fn record_differences(index: usize, from: &Record, to: &Record, lines: &mut Vec<String>) {
    for ((name, before), (_, after)) in fields(from).into_iter().zip(fields(to)) {
        if before != after {
            lines.push(format!("force record {index} {name} {after}"));
        }
    }
    for buffer in Buffer::BOTH {
        let which = buffer.index();
        if from.buffers[which] != to.buffers[which] {
            let armed = buffer_words(to.buffer(buffer));
            lines.push(format!("force buffer {index} {which} {armed}"));
        }
    }
}

fn fields(record: &Record) -> [(&'static str, String); 9] {
    [
        ("condition", condition_word(record.condition).to_owned()),
        ("kind", kind_word(record.kind).to_owned()),
        ("type", transfer_word(record.transfer).to_owned()),
        ("number", record.number.to_string()),
        ("max", record.maximum.to_string()),
        ("next", record.next.index().to_string()),
        ("events", record.events.to_string()),
        ("out", (record.out_toggle as u8).to_string()),
        ("in", (record.in_toggle as u8).to_string()),
    ]
}

fn buffer_words(armed: Option<&Descriptor>) -> String {
    match armed {
        None => "off".to_owned(),
        Some(Descriptor {
            base,
            length,
            done,
            used,
        }) => {
            format!("{base} {length} {done} {}", u8::from(*used))
        }
    }
}

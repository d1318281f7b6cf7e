//! Plays the call script: one line in, at most one line out.

use std::io::Write;

use crate::bus::Answer;
use crate::calls::{Core, Refusal};
use crate::frame::FrameRecord;
use crate::parse::{self, Command, Field, Force};
use crate::probe::{Call, Probe};
use crate::state::{Condition, Descriptor, Kind, Record, Speed, Stage, State, Transfer, Wait};

const MEMORY_BYTES: usize = 131_072;
const REPLY_BYTES: usize = 1_040;
const REPLY_LENT: usize = 1_027;
const HEX_DIGITS: &[u8; 16] = b"0123456789ABCDEF";

/// The core with the memory, reply buffer and frame record of the program.
pub struct Player<P: Probe> {
    core: Core<P>,
    memory: Vec<u8>,
    reply: Vec<u8>,
    frame: FrameRecord,
    lent: Option<(usize, usize)>,
}

impl<P: Probe> Player<P> {
    pub fn new(probe: P) -> Player<P> {
        Player {
            core: Core::with_probe(probe),
            memory: vec![0; MEMORY_BYTES],
            reply: vec![0; REPLY_BYTES],
            frame: FrameRecord::default(),
            lent: None,
        }
    }

    pub fn state(&self) -> &State {
        self.core.state()
    }

    pub fn frame(&self) -> FrameRecord {
        self.frame
    }

    /// How much memory and reply buffer is lent, where it is not the default.
    pub fn lent(&self) -> Option<(usize, usize)> {
        self.lent
    }

    pub fn probe(&self) -> &P {
        self.core.probe()
    }

    pub fn into_probe(self) -> P {
        self.core.into_probe()
    }

    /// Plays a line and appends its answer; an empty line or a comment has none.
    pub fn play(&mut self, line: &[u8], out: &mut Vec<u8>) {
        if line.is_empty() || line.starts_with(b"#") {
            return;
        }
        let done = match parse::command(line) {
            Some(command) => self.run(command, out),
            None => None,
        };
        if done.is_none() {
            out.extend_from_slice(b"bad line");
        }
        out.push(b'\n');
    }

    /// `None` is a bad line, found before anything was written or changed.
    fn run(&mut self, command: Command, out: &mut Vec<u8>) -> Option<()> {
        match command {
            Command::Lend(lent) => {
                self.lent = lent.map(|(memory, reply)| (memory as usize, reply as usize));
                out.extend_from_slice(b"ok");
            }
            Command::Fill(base, bytes) => {
                self.memory
                    .get_mut(base as usize..base as usize + bytes.len())?
                    .copy_from_slice(&bytes);
                out.extend_from_slice(b"ok");
            }
            Command::Show(base, length) => {
                let end = base as usize + length as usize;
                write_bytes(self.memory.get(base as usize..end)?, out);
            }
            Command::Reply(length) => write_bytes(&self.reply[..length as usize], out),
            Command::State => write_state(self.core.state(), out),
            Command::Force(force) => {
                self.force(force);
                out.extend_from_slice(b"ok");
            }
            Command::Packet(packet) => self.packet(&packet, out),
            Command::Encode(pid, payload) => self.encode(pid, &payload, out),
            Command::Decode(packet) => self.decode(&packet, out),
            call => self.call(call, out),
        }
        Some(())
    }

    /// The calls that answer a refusal, and at most one number.
    fn call(&mut self, command: Command, out: &mut Vec<u8>) {
        let core = &mut self.core;
        match command {
            Command::Start(speed, memory) => {
                let answer = core.start(speed, memory);
                self.told(Call::Start, answer, out);
            }
            Command::Configure(index, values) => {
                let off = values.condition == Condition::Off;
                let answer = core.configure(index, &values);
                let call = if off {
                    Call::ConfigureOff
                } else {
                    Call::Configure
                };
                self.told(call, answer, out);
            }
            Command::Arm {
                index,
                buffer,
                base,
                length,
            } => {
                let answer = core.arm(index, buffer, base, length);
                self.told(Call::Arm, answer, out);
            }
            Command::Disarm(index, buffer) => {
                let answer = core.disarm(index, buffer);
                self.told_number(Call::Disarm, answer, out);
            }
            Command::Halt(index) => {
                let answer = core.set_halt(index);
                self.told(Call::Halt, answer, out);
            }
            Command::Clear(index) => {
                let answer = core.clear_halt(index);
                self.told(Call::Clear, answer, out);
            }
            Command::Address(address) => {
                let answer = core.set_address(address);
                self.told(Call::Address, answer, out);
            }
            Command::RecordEvents(index) => {
                let answer = core.record_events(index).map(u32::from);
                self.told_number(Call::RecordEvents, answer, out);
            }
            Command::SystemEvents => {
                let answer = core.system_events();
                self.told_number(Call::SystemEvents, answer, out);
            }
            Command::Reset(speed) => {
                let answer = core.bus_reset(speed);
                self.told(Call::Reset, answer, out);
            }
            Command::Timeout => {
                let (memory, reply) = self.lengths();
                let answer = self
                    .core
                    .timeout(&self.memory[..memory], &self.reply[..reply]);
                self.told(Call::Timeout, answer, out);
            }
            Command::Frame(number) => {
                let answer = self.core.frame(&mut self.frame, number).map(u32::from);
                self.told_number(Call::Frame, answer, out);
            }
            _ => {}
        }
    }

    fn packet(&mut self, packet: &[u8], out: &mut Vec<u8>) {
        let (memory, reply) = self.lengths();
        let answer = self
            .core
            .packet(&mut self.memory[..memory], packet, &mut self.reply[..reply]);
        self.told(Call::Packet, answer, out);
        match answer {
            Ok(Answer::Reply(length)) => {
                out.push(b' ');
                write_bytes(&self.reply[..length], out);
            }
            Ok(Answer::Sof(number)) => put(out, format_args!(" sof {number}")),
            Ok(Answer::Silent) | Err(_) => out.extend_from_slice(b" -"),
        }
    }

    fn encode(&mut self, pid: u32, payload: &[u8], out: &mut Vec<u8>) {
        let (_, reply) = self.lengths();
        let answer = self.core.encode(pid, payload, &mut self.reply[..reply]);
        self.told(Call::Encode, answer, out);
        out.push(b' ');
        write_bytes(&self.reply[..answer.unwrap_or(0)], out);
    }

    fn decode(&mut self, packet: &[u8], out: &mut Vec<u8>) {
        match self.core.decode(packet) {
            Some(data) => {
                put(out, format_args!("good {} ", data.pid.number()));
                write_bytes(data.payload, out);
            }
            None => out.extend_from_slice(b"not good"),
        }
    }

    /// How many bytes of memory and reply buffer a call is lent.
    fn lengths(&self) -> (usize, usize) {
        let memory = (self.core.state().memory as usize).min(MEMORY_BYTES);
        self.lent.unwrap_or((memory, REPLY_LENT))
    }

    fn told<T>(&mut self, call: Call, answer: Result<T, Refusal>, out: &mut Vec<u8>) {
        let refusal = answer.err().map_or(0, Refusal::number);
        self.core.probe_mut().answered(call, refusal);
        put(out, format_args!("{refusal}"));
    }

    fn told_number(&mut self, call: Call, answer: Result<u32, Refusal>, out: &mut Vec<u8>) {
        self.told(call, answer, out);
        put(out, format_args!(" {}", answer.unwrap_or(0)));
    }

    fn force(&mut self, force: Force) {
        let state = self.core.state_mut();
        match force {
            Force::Memory(memory) => state.memory = memory,
            Force::Address(address) => state.address = address,
            Force::Events(events) => state.events = events,
            Force::Wait(wait) => state.wait = wait,
            Force::Record(index, field) => force_field(&mut state.records[index], field),
            Force::Buffer(index, buffer, armed) => {
                state.records[index].buffers[buffer.index()] = armed;
            }
            Force::Frame(frame) => self.frame = frame,
        }
    }
}

fn force_field(record: &mut Record, field: Field) {
    match field {
        Field::Condition(condition) => record.condition = condition,
        Field::Kind(kind) => record.kind = kind,
        Field::Type(transfer) => record.transfer = transfer,
        Field::Number(number) => record.number = number,
        Field::Maximum(maximum) => record.maximum = maximum,
        Field::Next(buffer) => record.next = buffer,
        Field::Events(events) => record.events = events,
        Field::OutToggle(toggle) => record.out_toggle = toggle,
        Field::InToggle(toggle) => record.in_toggle = toggle,
    }
}

/// Writing to a vector cannot fail.
fn put(out: &mut Vec<u8>, text: std::fmt::Arguments) {
    let _ = out.write_fmt(text);
}

/// Pairs of upper-case digits, `-` for none.
pub fn write_bytes(bytes: &[u8], out: &mut Vec<u8>) {
    if bytes.is_empty() {
        out.push(b'-');
    }
    for &byte in bytes {
        out.push(HEX_DIGITS[usize::from(byte >> 4)]);
        out.push(HEX_DIGITS[usize::from(byte & 0x0F)]);
    }
}

fn write_state(state: &State, out: &mut Vec<u8>) {
    let State {
        memory,
        address,
        events,
        ..
    } = state;
    let speed = speed_word(state.speed);
    put(
        out,
        format_args!("M {memory} address {address} speed {speed} events {events} wait "),
    );
    match state.wait {
        Wait::Nothing => out.extend_from_slice(b"nothing"),
        Wait::Data { record, stage } => {
            put(out, format_args!("data {record} {}", stage_word(stage)))
        }
        Wait::Ack {
            record,
            buffer,
            length,
        } => put(
            out,
            format_args!("ack {record} {} {length}", buffer.index()),
        ),
    }
    for (index, record) in state.records.iter().enumerate() {
        if *record != Record::OFF {
            write_record(index, record, out);
        }
    }
}

fn write_record(index: usize, record: &Record, out: &mut Vec<u8>) {
    let condition = condition_word(record.condition);
    let kind = kind_word(record.kind);
    let transfer = transfer_word(record.transfer);
    let Record {
        number,
        maximum,
        events,
        ..
    } = record;
    let next = record.next.index();
    let out_toggle = record.out_toggle as u8;
    let in_toggle = record.in_toggle as u8;
    put(
        out,
        format_args!(" | {index} {condition} {kind} {transfer} {number} {maximum}"),
    );
    put(
        out,
        format_args!(" {next} {events} {out_toggle} {in_toggle}"),
    );
    for buffer in &record.buffers {
        match buffer {
            None => out.extend_from_slice(b" off"),
            Some(armed) => write_descriptor(armed, out),
        }
    }
}

fn write_descriptor(armed: &Descriptor, out: &mut Vec<u8>) {
    let Descriptor {
        base, length, done, ..
    } = armed;
    put(
        out,
        format_args!(" {base},{length},{done},{}", u8::from(armed.used)),
    );
}

pub fn speed_word(speed: Speed) -> &'static str {
    match speed {
        Speed::Full => "full",
        Speed::High => "high",
    }
}

pub fn condition_word(condition: Condition) -> &'static str {
    match condition {
        Condition::Off => "off",
        Condition::Normal => "normal",
        Condition::Halted => "halted",
    }
}

pub fn kind_word(kind: Kind) -> &'static str {
    match kind {
        Kind::Control => "control",
        Kind::In => "in",
        Kind::Out => "out",
    }
}

pub fn transfer_word(transfer: Transfer) -> &'static str {
    match transfer {
        Transfer::Control => "control",
        Transfer::Bulk => "bulk",
        Transfer::Interrupt => "interrupt",
    }
}

pub fn stage_word(stage: Stage) -> &'static str {
    match stage {
        Stage::Setup => "setup",
        Stage::Out => "out",
    }
}

//! The core and the calls of the firmware.

use crate::packet::{self, Data, Pid, PACKET_LIMIT, PAYLOAD_LIMIT};
use crate::probe::{Plain, Probe};
use crate::state::{
    Buffer, Condition, Descriptor, Kind, Record, Side, Speed, State, Toggle, Transfer,
    MEMORY_LIMIT, RECORDS,
};
use crate::wrong::Wrong;

/// Why a call was refused; the number is the document's.
#[derive(Clone, Copy, PartialEq, Eq, Debug)]
pub enum Refusal {
    Unsound = 1,
    MemoryLent = 2,
    ReplyBuffer = 3,
    Index = 4,
    InUse = 5,
    Values = 6,
    Served = 7,
    Off = 8,
    Buffer = 9,
    Unfinished = 10,
    Unarmed = 11,
    Span = 12,
    Shared = 13,
    Address = 14,
    MemorySize = 15,
    Frame = 16,
}

impl Refusal {
    pub fn number(self) -> u32 {
        self as u32
    }
}

/// Refuses when the condition holds.
pub(crate) fn refuse(refusal: Refusal, when: bool) -> Result<(), Refusal> {
    if when {
        Err(refusal)
    } else {
        Ok(())
    }
}

/// The values that configure gives a record.
#[derive(Clone, Copy, PartialEq, Eq, Debug)]
pub struct Configuration {
    pub condition: Condition,
    pub kind: Kind,
    pub transfer: Transfer,
    pub number: u32,
    pub maximum: u32,
}

impl Configuration {
    /// The other values are not judged when a record is set off.
    pub const OFF: Configuration = Configuration {
        condition: Condition::Off,
        kind: Kind::Control,
        transfer: Transfer::Control,
        number: 0,
        maximum: 0,
    };

    fn serves(&self, side: Side) -> bool {
        let kind = self.kind;
        Record {
            kind,
            ..Record::OFF
        }
        .serves(side)
    }
}

/// The function core.
pub struct Core<P: Probe = Plain> {
    pub(crate) state: State,
    pub(crate) probe: P,
}

impl Core<Plain> {
    pub fn new() -> Core<Plain> {
        Core::with_probe(Plain)
    }
}

impl Default for Core<Plain> {
    fn default() -> Core<Plain> {
        Core::new()
    }
}

impl<P: Probe> Core<P> {
    /// Before its first start the core is what a refused start returns.
    pub fn with_probe(probe: P) -> Core<P> {
        let state = State::refused_start();
        Core { state, probe }
    }

    pub fn state(&self) -> &State {
        &self.state
    }

    /// For forcing fields with no judgement; every call judges the state itself.
    pub fn state_mut(&mut self) -> &mut State {
        &mut self.state
    }

    pub fn probe(&self) -> &P {
        &self.probe
    }

    pub fn probe_mut(&mut self) -> &mut P {
        &mut self.probe
    }

    pub fn into_probe(self) -> P {
        self.probe
    }

    pub fn start(&mut self, speed: Speed, memory: u32) -> Result<(), Refusal> {
        let limit = MEMORY_LIMIT + self.slip(Wrong::Memory131073);
        if memory > limit || self.is(Wrong::RefusesEveryCall) {
            self.state = State::refused_start();
            return Err(Refusal::MemorySize);
        }
        self.state = State::started(speed, memory);
        Ok(())
    }

    pub fn configure(&mut self, index: u32, values: &Configuration) -> Result<(), Refusal> {
        let index = self.sound_index(index)?;
        let off = values.condition == Condition::Off;
        if self.is(Wrong::Order6Before5) && !off {
            self.judge_values(values)?;
        }
        self.judge_idle(index)?;
        if off {
            if self.is(Wrong::OffIsJudged) {
                self.judge_unserved(index, values)?;
            }
            self.state.records[index] = Record::OFF;
            return Ok(());
        }
        if self.is(Wrong::Order7Before6) {
            self.judge_unserved(index, values)?;
        }
        self.judge_values(values)?;
        self.judge_unserved(index, values)?;
        let kept = match self.is(Wrong::ConfigureKeepsEvents) {
            true => self.state.records[index].events,
            false => 0,
        };
        self.state.records[index] = Record {
            condition: values.condition,
            kind: values.kind,
            transfer: values.transfer,
            number: values.number as u8,
            maximum: values.maximum,
            events: kept,
            ..Record::OFF
        };
        Ok(())
    }

    pub fn arm(&mut self, index: u32, buffer: u32, base: u32, length: u32) -> Result<(), Refusal> {
        let index = self.sound_index(index)?;
        if self.is(Wrong::Order9Before8) {
            buffer_number(buffer)?;
        }
        self.judge_live(index)?;
        let buffer = buffer_number(buffer)?;
        if self.is(Wrong::Order12Before10) {
            self.judge_span(index, buffer, base, length)?;
        }
        let armed = self.state.records[index].buffer(buffer);
        refuse(Refusal::Unfinished, armed.is_some_and(|armed| !armed.used))?;
        if self.is(Wrong::Order13Before12) {
            self.judge_apart(index, buffer, base, length)?;
        }
        self.judge_span(index, buffer, base, length)?;
        self.judge_apart(index, buffer, base, length)?;
        self.state.records[index].buffers[buffer.index()] = Some(Descriptor::fresh(base, length));
        Ok(())
    }

    /// Returns the done count.
    pub fn disarm(&mut self, index: u32, buffer: u32) -> Result<u32, Refusal> {
        let index = self.sound_index(index)?;
        if self.is(Wrong::Order11Before5) && buffer <= 1 && self.state.records[index].live() {
            self.armed(index, buffer_number(buffer)?)?;
        }
        if !self.is(Wrong::DisarmInWait) {
            self.judge_not_waited(index)?;
        }
        if self.is(Wrong::Order9Before8) {
            buffer_number(buffer)?;
        }
        self.judge_live(index)?;
        let buffer = buffer_number(buffer)?;
        let armed = self.armed(index, buffer)?;
        self.state.records[index].buffers[buffer.index()] = None;
        if self.is(Wrong::InventedDone) {
            return Ok(armed.length);
        }
        Ok(armed.done)
    }

    pub fn set_halt(&mut self, index: u32) -> Result<(), Refusal> {
        let index = self.sound_index(index)?;
        self.judge_not_waited(index)?;
        self.judge_live(index)?;
        if self.is(Wrong::HaltClearsToggles) {
            self.clear_toggles(index);
        }
        self.state.records[index].condition = Condition::Halted;
        Ok(())
    }

    pub fn clear_halt(&mut self, index: u32) -> Result<(), Refusal> {
        let index = self.sound_index(index)?;
        self.judge_not_waited(index)?;
        self.judge_live(index)?;
        if !self.is(Wrong::ClearKeepsToggles) {
            self.clear_toggles(index);
        }
        self.state.records[index].condition = Condition::Normal;
        Ok(())
    }

    pub fn set_address(&mut self, address: u32) -> Result<(), Refusal> {
        let beyond = address > 127 + self.slip(Wrong::Address128);
        refuse(Refusal::Address, beyond && self.is(Wrong::Order14Before1))?;
        self.judge_sound()?;
        refuse(Refusal::Address, beyond)?;
        self.state.address = address as u8;
        Ok(())
    }

    /// Returns the record's event bits and clears them.
    pub fn record_events(&mut self, index: u32) -> Result<u8, Refusal> {
        let index = self.sound_index(index)?;
        let events = self.state.records[index].events;
        if !self.is(Wrong::EventsStay) {
            self.state.records[index].events = 0;
        }
        Ok(events)
    }

    /// Returns the system event bits and clears them.
    pub fn system_events(&mut self) -> Result<u32, Refusal> {
        self.judge_sound()?;
        let events = self.state.events;
        if !self.is(Wrong::EventsStay) {
            self.state.events = 0;
        }
        Ok(events)
    }

    pub fn bus_reset(&mut self, speed: Speed) -> Result<(), Refusal> {
        self.judge_sound()?;
        let mut after = State::started(speed, self.state.memory);
        if !self.is(Wrong::ResetClearsAddress) {
            after.address = self.state.address;
        }
        if !self.is(Wrong::ResetClearsEvents) {
            after.events = self.state.events;
        }
        after.events |= 1 << 28;
        self.state = after;
        Ok(())
    }

    /// Writes a data packet from the first byte of the buffer and returns its length.
    pub fn encode(&self, pid: u32, payload: &[u8], buffer: &mut [u8]) -> Result<usize, Refusal> {
        let limit = PAYLOAD_LIMIT + self.slip(Wrong::Payload1025) as usize;
        let data_pid = Pid::data(pid).filter(|_| payload.len() <= limit);
        refuse(
            Refusal::Values,
            data_pid.is_none() && self.is(Wrong::Order6Before3),
        )?;
        self.judge_reply(buffer)?;
        let data_pid = data_pid.ok_or(Refusal::Values)?;
        // Only a wrong core meets a buffer or a payload that does not fit.
        let fitting = &payload[..payload.len().min(buffer.len() - 3)];
        Ok(packet::write_data(data_pid, fitting, buffer))
    }

    /// Reads a data packet; `None` is "not good".
    pub fn decode<'a>(&self, packet: &'a [u8]) -> Option<Data<'a>> {
        packet::read_data(&self.probe, packet)
    }

    #[inline(always)]
    pub(crate) fn is(&self, wrong: Wrong) -> bool {
        self.probe.is(wrong)
    }

    #[inline(always)]
    pub(crate) fn slip(&self, wrong: Wrong) -> u32 {
        self.probe.slip(wrong)
    }

    /// Refusal 1.
    pub(crate) fn judge_sound(&mut self) -> Result<(), Refusal> {
        if self.is(Wrong::RefusesEveryCall) {
            return Err(Refusal::Unsound);
        }
        self.state.judge(&self.probe).map_err(|clause| {
            self.probe.unsound(clause);
            Refusal::Unsound
        })
    }

    /// Refusal 3.
    pub(crate) fn judge_reply(&self, reply: &[u8]) -> Result<(), Refusal> {
        let least = PACKET_LIMIT - self.slip(Wrong::Reply1026) as usize;
        refuse(Refusal::ReplyBuffer, reply.len() < least)
    }

    /// Refusals 1 and 4.
    fn sound_index(&mut self, index: u32) -> Result<usize, Refusal> {
        if self.is(Wrong::Index16) && index == 16 {
            return self.sound_index(15);
        }
        let beyond = index as usize >= RECORDS;
        refuse(Refusal::Index, beyond && self.is(Wrong::Order4Before1))?;
        self.judge_sound()?;
        refuse(Refusal::Index, beyond)?;
        Ok(index as usize)
    }

    /// Refusal 5 of configure.
    fn judge_idle(&self, index: usize) -> Result<(), Refusal> {
        let blind = self.is(Wrong::UsedIsNotArmed);
        let counts = |armed: &Descriptor| !(blind && armed.used);
        let mut armed = self.state.records[index].buffers.iter().flatten();
        refuse(Refusal::InUse, armed.any(counts))?;
        self.judge_not_waited(index)
    }

    /// Refusal 5 of disarm and the halts.
    fn judge_not_waited(&self, index: usize) -> Result<(), Refusal> {
        refuse(Refusal::InUse, self.state.wait.record() == Some(index))
    }

    /// Refusal 6 of configure.
    fn judge_values(&self, values: &Configuration) -> Result<(), Refusal> {
        let typed = (values.kind == Kind::Control) == (values.transfer == Transfer::Control);
        let fits = self
            .state
            .maximum_fits(values.transfer, values.maximum, &self.probe);
        let numbered = values.number <= 15 + self.slip(Wrong::Number16);
        let normal = values.condition == Condition::Normal;
        refuse(Refusal::Values, !(normal && typed && fits && numbered))
    }

    /// Refusal 7.
    fn judge_unserved(&self, index: usize, values: &Configuration) -> Result<(), Refusal> {
        let clashes = |(other, record): (usize, &Record)| {
            let same = other != index && u32::from(record.number) == values.number;
            let meets = |side| record.serves(side) && values.serves(side);
            same && record.live() && (meets(Side::Out) || meets(Side::In))
        };
        let served = self.state.records.iter().enumerate().any(clashes);
        refuse(Refusal::Served, served)
    }

    /// Refusal 8.
    fn judge_live(&self, index: usize) -> Result<(), Refusal> {
        refuse(Refusal::Off, !self.state.records[index].live())
    }

    /// Refusal 11.
    fn armed(&self, index: usize, buffer: Buffer) -> Result<Descriptor, Refusal> {
        let armed = self.state.records[index].buffers[buffer.index()];
        armed.ok_or(Refusal::Unarmed)
    }

    /// Refusal 12.
    fn judge_span(
        &self,
        index: usize,
        buffer: Buffer,
        base: u32,
        length: u32,
    ) -> Result<(), Refusal> {
        let record = &self.state.records[index];
        self.state
            .span_fault(
                record.side(buffer),
                record.maximum,
                base,
                length,
                &self.probe,
            )
            .map_err(|_| Refusal::Span)
    }

    /// Refusal 13; the buffer's own old span does not count.
    fn judge_apart(
        &self,
        index: usize,
        buffer: Buffer,
        base: u32,
        length: u32,
    ) -> Result<(), Refusal> {
        let span = Descriptor::fresh(base, length);
        for (other, record) in self.state.records.iter().enumerate() {
            for which in Buffer::BOTH {
                let own = other == index && which == buffer && !self.is(Wrong::OwnSpanCounted);
                let counts = |armed: &&Descriptor| !(self.is(Wrong::UsedSpanFree) && armed.used);
                let armed = record.buffer(which).filter(counts);
                let shared = armed.is_some_and(|armed| armed.shares(&span, &self.probe));
                refuse(Refusal::Shared, shared && !own)?;
            }
        }
        Ok(())
    }

    fn clear_toggles(&mut self, index: usize) {
        self.state.records[index].out_toggle = Toggle::Data0;
        self.state.records[index].in_toggle = Toggle::Data0;
    }
}

/// Refusal 9.
fn buffer_number(buffer: u32) -> Result<Buffer, Refusal> {
    match buffer {
        0 => Ok(Buffer::Zero),
        1 => Ok(Buffer::One),
        _ => Err(Refusal::Buffer),
    }
}

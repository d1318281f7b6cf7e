//! The state of the core, and what makes it sound.

use crate::named::named;
use crate::packet::Pid;
use crate::probe::{Plain, Probe};
use crate::wrong::Wrong;

pub const RECORDS: usize = 16;
pub const MEMORY_LIMIT: u32 = 131_072;
pub const BASE_LIMIT: u32 = 131_070;
pub const LENGTH_LIMIT: u32 = 16_383;
/// Record events 0 to 6.
pub const RECORD_EVENTS: u8 = 0x7F;
/// System events 20, 21, 22 and 28.
pub const SYSTEM_EVENTS: u32 = 1 << 20 | 1 << 21 | 1 << 22 | 1 << 28;

#[derive(Clone, Copy, PartialEq, Eq, Debug)]
pub enum Speed {
    Full,
    High,
}

#[derive(Clone, Copy, PartialEq, Eq, Debug)]
pub enum Condition {
    Off,
    Normal,
    Halted,
}

#[derive(Clone, Copy, PartialEq, Eq, Debug)]
pub enum Kind {
    Control,
    In,
    Out,
}

#[derive(Clone, Copy, PartialEq, Eq, Debug)]
pub enum Transfer {
    Control,
    Bulk,
    Interrupt,
}

/// The direction of the data, seen from the host.
#[derive(Clone, Copy, PartialEq, Eq, Debug)]
pub enum Side {
    Out,
    In,
}

#[derive(Clone, Copy, PartialEq, Eq, Debug)]
pub enum Toggle {
    Data0,
    Data1,
}

impl Toggle {
    pub fn flipped(self) -> Toggle {
        match self {
            Toggle::Data0 => Toggle::Data1,
            Toggle::Data1 => Toggle::Data0,
        }
    }

    pub fn pid(self) -> Pid {
        match self {
            Toggle::Data0 => Pid::Data0,
            Toggle::Data1 => Pid::Data1,
        }
    }
}

/// One of a record's two buffers.
#[derive(Clone, Copy, PartialEq, Eq, Debug)]
pub enum Buffer {
    Zero,
    One,
}

impl Buffer {
    pub const BOTH: [Buffer; 2] = [Buffer::Zero, Buffer::One];

    pub fn index(self) -> usize {
        self as usize
    }

    pub fn other(self) -> Buffer {
        match self {
            Buffer::Zero => Buffer::One,
            Buffer::One => Buffer::Zero,
        }
    }
}

/// An armed buffer; an unallocated one is `None`.
#[derive(Clone, Copy, PartialEq, Eq, Debug)]
pub struct Descriptor {
    pub base: u32,
    pub length: u32,
    pub done: u32,
    pub used: bool,
}

impl Descriptor {
    pub fn fresh(base: u32, length: u32) -> Descriptor {
        Descriptor {
            base,
            length,
            done: 0,
            used: false,
        }
    }

    /// Only of a descriptor whose done is at most its length.
    pub fn left(&self) -> u32 {
        self.length - self.done
    }

    /// Only of a descriptor whose span lies inside the memory.
    fn span(&self) -> Span {
        Span {
            base: self.base,
            end: self.base + self.length,
        }
    }

    pub fn shares<P: Probe>(&self, other: &Descriptor, probe: &P) -> bool {
        self.span().shares(other.span(), probe)
    }
}

/// The bytes from base up to, but not with, end.
#[derive(Clone, Copy)]
struct Span {
    base: u32,
    end: u32,
}

impl Span {
    /// A span of length 0 shares no byte with any other.
    #[inline]
    fn shares<P: Probe>(self, other: Span, probe: &P) -> bool {
        if probe.is(Wrong::EmptySpansOverlap) {
            return self.base < other.end && other.base < self.end;
        }
        self.base.max(other.base) < self.end.min(other.end)
    }
}

#[derive(Clone, Copy, PartialEq, Eq, Debug)]
pub struct Record {
    pub condition: Condition,
    pub kind: Kind,
    pub transfer: Transfer,
    pub number: u8,
    pub maximum: u32,
    pub next: Buffer,
    pub events: u8,
    pub out_toggle: Toggle,
    pub in_toggle: Toggle,
    pub buffers: [Option<Descriptor>; 2],
}

impl Record {
    /// The record that is all zero.
    pub const OFF: Record = Record {
        condition: Condition::Off,
        kind: Kind::Control,
        transfer: Transfer::Control,
        number: 0,
        maximum: 0,
        next: Buffer::Zero,
        events: 0,
        out_toggle: Toggle::Data0,
        in_toggle: Toggle::Data0,
        buffers: [None, None],
    };

    pub fn live(&self) -> bool {
        self.condition != Condition::Off
    }

    pub fn halted(&self) -> bool {
        self.condition == Condition::Halted
    }

    pub fn serves(&self, side: Side) -> bool {
        match self.kind {
            Kind::Control => true,
            Kind::In => side == Side::In,
            Kind::Out => side == Side::Out,
        }
    }

    /// The side on which this record uses the buffer.
    pub fn side(&self, buffer: Buffer) -> Side {
        match (self.kind, buffer) {
            (Kind::Out, _) | (Kind::Control, Buffer::Zero) => Side::Out,
            (Kind::In, _) | (Kind::Control, Buffer::One) => Side::In,
        }
    }

    pub fn buffer(&self, buffer: Buffer) -> Option<&Descriptor> {
        self.buffers[buffer.index()].as_ref()
    }

    fn ready(&self, buffer: Buffer) -> bool {
        self.buffer(buffer).is_some_and(|armed| !armed.used)
    }

    /// The buffer that comes next, whether or not it can serve.
    pub fn chosen(&self, side: Side) -> Buffer {
        match (self.kind, side) {
            (Kind::Control, Side::Out) => Buffer::Zero,
            (Kind::Control, Side::In) => Buffer::One,
            _ if self.buffer(self.next).is_some() => self.next,
            _ => self.next.other(),
        }
    }

    /// The active buffer; a used marked buffer is not skipped.
    pub fn active<P: Probe>(&self, side: Side, probe: &P) -> Option<Buffer> {
        let chosen = self.chosen(side);
        if self.ready(chosen) {
            return Some(chosen);
        }
        let skips = probe.is(Wrong::AnyFreeBuffer) && self.kind != Kind::Control;
        (skips && self.ready(chosen.other())).then_some(chosen.other())
    }
}

/// What an awaited data packet belongs to.
#[derive(Clone, Copy, PartialEq, Eq, Debug)]
pub enum Stage {
    Setup,
    Out,
}

#[derive(Clone, Copy, PartialEq, Eq, Debug)]
pub enum Wait {
    Nothing,
    Data {
        record: u8,
        stage: Stage,
    },
    Ack {
        record: u8,
        buffer: Buffer,
        length: u32,
    },
}

impl Wait {
    /// The record that the core waits on.
    pub fn record(&self) -> Option<usize> {
        match *self {
            Wait::Nothing => None,
            Wait::Data { record, .. } | Wait::Ack { record, .. } => Some(usize::from(record)),
        }
    }
}

#[derive(Clone, PartialEq, Eq, Debug)]
pub struct State {
    pub memory: u32,
    pub address: u8,
    pub speed: Speed,
    pub events: u32,
    pub wait: Wait,
    pub records: [Record; RECORDS],
}

impl State {
    pub fn started(speed: Speed, memory: u32) -> State {
        State {
            memory,
            address: 0,
            speed,
            events: 0,
            wait: Wait::Nothing,
            records: [Record::OFF; RECORDS],
        }
    }

    pub fn refused_start() -> State {
        State::started(Speed::Full, 0)
    }

    pub fn is_sound(&self) -> bool {
        self.judge(&Plain).is_ok()
    }

    /// The first clause of the sound state that does not hold.
    pub fn judge<P: Probe>(&self, probe: &P) -> Result<(), Fault> {
        Judge { state: self, probe }.state()
    }

    /// The search stops at the first match.
    pub fn find(&self, side: Side, number: u8) -> Option<usize> {
        self.records
            .iter()
            .position(|record| record.number == number && record.live() && record.serves(side))
    }

    /// Whether the maximum payload is one of this transfer type at this speed.
    pub fn maximum_fits<P: Probe>(&self, transfer: Transfer, maximum: u32, probe: &P) -> bool {
        match (transfer, self.speed) {
            (Transfer::Bulk, Speed::High) if probe.is(Wrong::HighBulk64) => {
                matches!(maximum, 64 | 512)
            }
            (Transfer::Bulk, Speed::High) => maximum == 512,
            (Transfer::Control, Speed::High) => maximum == 64,
            (Transfer::Control | Transfer::Bulk, Speed::Full) => {
                matches!(maximum, 8 | 16 | 32 | 64)
            }
            (Transfer::Interrupt, Speed::Full) => {
                (1..=64 + probe.slip(Wrong::FullInterrupt65)).contains(&maximum)
            }
            (Transfer::Interrupt, Speed::High) => (1..=1024).contains(&maximum),
        }
    }

    /// Refusal 12 and its clause of the sound state, told apart by their parts.
    pub fn span_fault<P: Probe>(
        &self,
        side: Side,
        maximum: u32,
        base: u32,
        length: u32,
        probe: &P,
    ) -> Result<(), Fault> {
        let end = u64::from(base) + u64::from(length) + u64::from(probe.slip(Wrong::EndBelowM));
        let whole = length > 0 && length.is_multiple_of(maximum)
            || length == 0 && probe.is(Wrong::EmptyOutSpan);
        hold(
            probe,
            Fault::Base,
            base <= BASE_LIMIT + probe.slip(Wrong::Base131071),
        )?;
        hold(
            probe,
            Fault::Length,
            length <= LENGTH_LIMIT + probe.slip(Wrong::Length16384),
        )?;
        hold(probe, Fault::End, end <= u64::from(self.memory))?;
        hold(probe, Fault::Multiple, side == Side::In || whole)
    }
}

named! {
    /// A clause of the sound state that does not hold.
    Fault {
        MemorySize = "M above 131,072",
        Address = "address above 127",
        SystemEvents = "system event not named",
        OffRecord = "off record not all zero",
        Number = "number above 15",
        KindAndType = "control kind without control type, or the reverse",
        Maximum = "maximum outside type and speed",
        RecordEvents = "record event not named",
        UnusedToggle = "toggle that the kind does not use",
        ServedTwice = "two records serve one number and direction",
        Base = "base above 131,070",
        Length = "length above 16,383",
        End = "span past M",
        Multiple = "OUT-side length 0 or no multiple",
        Shared = "spans share a byte",
        Done = "done above length",
        OutUsedEarly = "OUT side used with left at least maximum",
        OutUnusedLate = "OUT side unused with left below maximum",
        InUsedEarly = "IN side used with left above 0",
        InUnusedLate = "IN side unused with left 0 and length above 0",
        WaitIndex = "wait on no live record",
        WaitSide = "wait on a record of the other side",
        AckBuffer = "acknowledge wait on the wrong buffer",
        AckUnarmed = "acknowledge wait on a buffer not armed",
        AckUsed = "acknowledge wait on a used buffer",
        AckLength = "acknowledge wait with another length",
    }
}

fn hold<P: Probe>(probe: &P, clause: Fault, holds: bool) -> Result<(), Fault> {
    if holds || probe.overlooks(clause) {
        Ok(())
    } else {
        Err(clause)
    }
}

/// Armed spans met so far, and numbers served so far on each side.
struct Seen {
    spans: [Span; 2 * RECORDS],
    armed: usize,
    out_numbers: u16,
    in_numbers: u16,
}

struct Judge<'a, P: Probe> {
    state: &'a State,
    probe: &'a P,
}

impl<P: Probe> Judge<'_, P> {
    fn hold(&self, clause: Fault, holds: bool) -> Result<(), Fault> {
        hold(self.probe, clause, holds)
    }

    fn state(&self) -> Result<(), Fault> {
        let state = self.state;
        let limit = MEMORY_LIMIT + self.probe.slip(Wrong::Memory131073);
        self.hold(Fault::MemorySize, state.memory <= limit)?;
        let limit = 127 + self.probe.slip(Wrong::Address128);
        self.hold(Fault::Address, u32::from(state.address) <= limit)?;
        self.hold(Fault::SystemEvents, state.events & !SYSTEM_EVENTS == 0)?;
        self.records()?;
        self.wait()
    }

    fn records(&self) -> Result<(), Fault> {
        let mut seen = Seen {
            spans: [Span { base: 0, end: 0 }; 2 * RECORDS],
            armed: 0,
            out_numbers: 0,
            in_numbers: 0,
        };
        for record in &self.state.records {
            if record.live() {
                self.live(record, &mut seen)?;
            } else {
                self.hold(Fault::OffRecord, *record == Record::OFF)?;
            }
        }
        Ok(())
    }

    fn live(&self, record: &Record, seen: &mut Seen) -> Result<(), Fault> {
        let control = record.kind == Kind::Control;
        let typed = control == (record.transfer == Transfer::Control);
        let fits = self
            .state
            .maximum_fits(record.transfer, record.maximum, self.probe);
        self.hold(Fault::Number, record.number <= 15)?;
        self.hold(Fault::KindAndType, typed)?;
        self.hold(Fault::Maximum, fits)?;
        self.hold(Fault::RecordEvents, record.events & !RECORD_EVENTS == 0)?;
        self.hold(Fault::UnusedToggle, unused_toggle_rests(record))?;
        self.served(record, seen)?;
        for buffer in Buffer::BOTH {
            if let Some(armed) = record.buffer(buffer) {
                self.armed(record, record.side(buffer), armed, seen)?;
            }
        }
        Ok(())
    }

    fn served(&self, record: &Record, seen: &mut Seen) -> Result<(), Fault> {
        let bit = 1 << record.number;
        let out_bit = if record.serves(Side::Out) { bit } else { 0 };
        let in_bit = if record.serves(Side::In) { bit } else { 0 };
        let twice = seen.out_numbers & out_bit | seen.in_numbers & in_bit;
        seen.out_numbers |= out_bit;
        seen.in_numbers |= in_bit;
        self.hold(Fault::ServedTwice, twice == 0)
    }

    fn armed(
        &self,
        record: &Record,
        side: Side,
        armed: &Descriptor,
        seen: &mut Seen,
    ) -> Result<(), Fault> {
        let Descriptor { base, length, .. } = *armed;
        self.state
            .span_fault(side, record.maximum, base, length, self.probe)?;
        let span = armed.span();
        let earlier = &seen.spans[..seen.armed];
        let shared = earlier.iter().any(|other| other.shares(span, self.probe));
        self.hold(Fault::Shared, !shared)?;
        seen.spans[seen.armed] = span;
        seen.armed += 1;
        self.hold(Fault::Done, armed.done <= length)?;
        self.used(side, record.maximum, armed)
    }

    fn used(&self, side: Side, maximum: u32, armed: &Descriptor) -> Result<(), Fault> {
        let (left, used) = (armed.left(), armed.used);
        match side {
            Side::Out => {
                self.hold(Fault::OutUsedEarly, !used || left < maximum)?;
                self.hold(Fault::OutUnusedLate, used || left >= maximum)
            }
            Side::In => {
                self.hold(Fault::InUsedEarly, !used || left == 0)?;
                self.hold(Fault::InUnusedLate, used || left > 0 || armed.length == 0)
            }
        }
    }

    fn wait(&self) -> Result<(), Fault> {
        let Some(index) = self.state.wait.record() else {
            return Ok(());
        };
        let record = self.state.records.get(index).ok_or(Fault::WaitIndex)?;
        self.hold(Fault::WaitIndex, record.live())?;
        match self.state.wait {
            Wait::Nothing => Ok(()),
            Wait::Data { stage, .. } => {
                let setup_fits = stage == Stage::Out || record.kind == Kind::Control;
                self.hold(Fault::WaitSide, record.serves(Side::Out) && setup_fits)
            }
            Wait::Ack { buffer, length, .. } => self.ack_wait(record, buffer, length),
        }
    }

    fn ack_wait(&self, record: &Record, buffer: Buffer, length: u32) -> Result<(), Fault> {
        let due = match record.kind {
            Kind::Control => Buffer::One,
            _ => record.next,
        };
        self.hold(Fault::WaitSide, record.serves(Side::In))?;
        self.hold(Fault::AckBuffer, buffer == due)?;
        let armed = record.buffer(buffer).ok_or(Fault::AckUnarmed)?;
        self.hold(Fault::AckUsed, !armed.used)?;
        self.hold(Fault::AckLength, length == record.maximum.min(armed.left()))
    }
}

/// A record of one direction has one toggle; the other stays DATA0.
fn unused_toggle_rests(record: &Record) -> bool {
    match record.kind {
        Kind::Control => true,
        Kind::In => record.out_toggle == Toggle::Data0,
        Kind::Out => record.in_toggle == Toggle::Data0,
    }
}

#[cfg(test)]
mod tests {
    use super::*;

    #[test]
    fn span_examples() {
        let span = Descriptor::fresh;
        assert!(!span(0, 8).shares(&span(8, 8), &Plain));
        assert!(span(0, 9).shares(&span(8, 8), &Plain));
        assert!(!span(0, 8).shares(&span(4, 0), &Plain));
    }

    #[test]
    fn span_at_the_end_of_memory() {
        let state = State::started(Speed::Full, MEMORY_LIMIT);
        assert_eq!(state.span_fault(Side::In, 8, 131_070, 2, &Plain), Ok(()));
        assert_eq!(
            state.span_fault(Side::In, 8, 131_070, 3, &Plain),
            Err(Fault::End)
        );
        assert_eq!(
            state.span_fault(Side::In, 8, u32::MAX, u32::MAX, &Plain),
            Err(Fault::Base)
        );
    }

    #[test]
    fn bulk_at_high_speed() {
        let state = State::started(Speed::High, 0);
        assert!(state.maximum_fits(Transfer::Bulk, 512, &Plain));
        assert!(!state.maximum_fits(Transfer::Bulk, 64, &Plain));
    }
}

//! Packets and timeouts from the bus.

use crate::calls::{refuse, Core, Refusal};
use crate::packet::{self, Data, Pid};
use crate::probe::{Probe, Rule};
use crate::state::{Buffer, Condition, Kind, Record, Side, Speed, Stage, Toggle, Transfer, Wait};
use crate::wrong::Wrong;

/// What a packet call answers.
#[derive(Clone, Copy, PartialEq, Eq, Debug)]
pub enum Answer {
    Silent,
    /// The length of the reply, written from the first byte of the reply buffer.
    Reply(usize),
    /// The frame number of an SOF.
    Sof(u16),
}

impl<P: Probe> Core<P> {
    /// A packet arrives.
    pub fn packet(
        &mut self,
        memory: &mut [u8],
        packet: &[u8],
        reply: &mut [u8],
    ) -> Result<Answer, Refusal> {
        let lent = self.judge_lent(memory, reply);
        if lent.is_err() && self.is(Wrong::RefusedPacketEndsWait) {
            self.state.wait = Wait::Nothing;
        }
        lent?;
        if self.is(Wrong::AlwaysSilent) {
            return Ok(Answer::Silent);
        }
        let answer = self.take(memory, packet, reply);
        if let (Answer::Reply(length), true) = (answer, self.is(Wrong::ReplyTailCleared)) {
            reply[length..].fill(0);
        }
        Ok(answer)
    }

    /// The awaited packet did not come in time.
    pub fn timeout(&mut self, memory: &[u8], reply: &[u8]) -> Result<(), Refusal> {
        self.judge_lent(memory, reply)?;
        let rule = match self.state.wait {
            Wait::Nothing => Rule::TimeoutWithoutWait,
            Wait::Data { .. } => Rule::TimeoutInDataWait,
            Wait::Ack { .. } => Rule::TimeoutInAckWait,
        };
        self.probe.reach(rule);
        if let Some(index) = self.state.wait.record() {
            self.state.wait = Wait::Nothing;
            self.set_event(index, 0);
        } else if self.is(Wrong::TimeoutAlwaysSets) {
            self.state.events |= 1 << 21;
        }
        Ok(())
    }

    /// Refusals 1, 2 and 3.
    fn judge_lent(&mut self, memory: &[u8], reply: &[u8]) -> Result<(), Refusal> {
        let size = self.state.memory as usize;
        let misfit = memory.len() != size;
        refuse(Refusal::MemoryLent, misfit && self.is(Wrong::Order2Before1))?;
        self.judge_sound()?;
        if self.is(Wrong::Order3Before2) {
            self.judge_reply(reply)?;
        }
        refuse(Refusal::MemoryLent, misfit)?;
        self.judge_reply(reply)
    }

    /// A wait ends at any packet.
    fn take(&mut self, memory: &mut [u8], packet: &[u8], reply: &mut [u8]) -> Answer {
        let wait = std::mem::replace(&mut self.state.wait, Wait::Nothing);
        let pid = Pid::checked(packet);
        match wait {
            Wait::Nothing => {}
            Wait::Data { record, stage } if pid.is_some_and(Pid::is_data) => {
                return self.take_data(usize::from(record), stage, memory, packet, reply);
            }
            Wait::Ack {
                record,
                buffer,
                length,
            } if pid == Some(Pid::Ack) && (packet.len() == 1 || self.is(Wrong::LongAckTaken)) => {
                return self.take_ack(usize::from(record), buffer, length);
            }
            Wait::Data { record, .. } => {
                self.probe.reach(Rule::DataWaitEnded);
                self.end_wait(usize::from(record), pid, packet);
            }
            Wait::Ack { record, .. } => {
                self.probe.reach(Rule::AckWaitEnded);
                if pid == Some(Pid::Ack) {
                    self.probe.reach(Rule::LongAck);
                }
                self.end_wait(usize::from(record), pid, packet);
            }
        }
        self.take_unawaited(pid, memory, packet, reply)
    }

    /// Another packet than the awaited one.
    fn end_wait(&mut self, index: usize, pid: Option<Pid>, packet: &[u8]) {
        if packet.is_empty() {
            self.probe.reach(Rule::EmptyInWait);
        }
        if pid == Some(Pid::Sof) {
            self.probe.reach(Rule::SofInWait);
            if self.is(Wrong::SofWithoutEvent) {
                return;
            }
        }
        self.set_event(index, 0);
    }

    fn take_unawaited(
        &mut self,
        pid: Option<Pid>,
        memory: &[u8],
        packet: &[u8],
        reply: &mut [u8],
    ) -> Answer {
        let Some(pid) = pid else {
            let empty = packet.is_empty();
            self.probe.reach(if empty {
                Rule::Empty
            } else {
                Rule::WrongPidCheck
            });
            return self.system_silent(21);
        };
        match pid {
            Pid::Ping if self.state.speed == Speed::Full && !self.is(Wrong::FullSpeedPing) => {
                self.silent(Rule::PingFullSpeed)
            }
            Pid::Data0 | Pid::Data1 | Pid::Data2 | Pid::Mdata => self.silent(Rule::DataWithoutWait),
            Pid::Ack | Pid::Nak | Pid::Stall | Pid::Nyet => self.silent(Rule::HandshakeWithoutWait),
            Pid::Pre | Pid::Split | Pid::Reserved => self.silent(Rule::PreSplitReserved),
            Pid::Out | Pid::In | Pid::Setup | Pid::Sof | Pid::Ping => {
                self.take_token(pid, memory, packet, reply)
            }
        }
    }

    fn take_token(&mut self, pid: Pid, memory: &[u8], packet: &[u8], reply: &mut [u8]) -> Answer {
        let Some(eleven) = packet::read_token(&self.probe, packet) else {
            let whole = packet.len() == 3;
            self.probe.reach(if whole {
                Rule::TokenCheck
            } else {
                Rule::TokenLength
            });
            return self.system_silent(20);
        };
        if pid == Pid::Sof {
            self.probe.reach(Rule::Sof);
            return Answer::Sof(eleven);
        }
        let address = (eleven & 0x7F) as u8;
        let served = address == 0 && self.is(Wrong::AddressZeroServed);
        if address != self.state.address && !served {
            return self.silent(Rule::OtherAddress);
        }
        let side = if pid == Pid::In { Side::In } else { Side::Out };
        let Some(index) = self.state.find(side, (eleven >> 7) as u8) else {
            self.probe.reach(Rule::NoRecord);
            return self.system_silent(22);
        };
        match pid {
            Pid::In => self.take_in(index, memory, reply),
            Pid::Ping => self.take_ping(index, reply),
            Pid::Setup => self.take_setup(index),
            _ => {
                self.probe.reach(Rule::OutWaits);
                self.await_data(index, Stage::Out)
            }
        }
    }

    fn take_setup(&mut self, index: usize) -> Answer {
        if self.state.records[index].kind != Kind::Control {
            self.probe.reach(Rule::SetupNotControl);
            return self.record_silent(index, 2);
        }
        self.probe.reach(Rule::SetupWaits);
        self.await_data(index, Stage::Setup)
    }

    fn await_data(&mut self, index: usize, stage: Stage) -> Answer {
        let record = index as u8;
        self.state.wait = Wait::Data { record, stage };
        Answer::Silent
    }

    fn take_ping(&mut self, index: usize, reply: &mut [u8]) -> Answer {
        let record = &self.state.records[index];
        let stalls_first = record.halted() && self.is(Wrong::HaltedBeforeInterrupt);
        if record.transfer == Transfer::Interrupt && !stalls_first {
            self.probe.reach(Rule::PingInterrupt);
            return self.record_silent(index, 2);
        }
        let (rule, pid) = if record.halted() {
            (Rule::PingHalted, Pid::Stall)
        } else if record.active(Side::Out, &self.probe).is_some() {
            (Rule::PingAck, Pid::Ack)
        } else {
            (Rule::PingNak, Pid::Nak)
        };
        self.probe.reach(rule);
        self.handshake(reply, pid)
    }

    fn take_in(&mut self, index: usize, memory: &[u8], reply: &mut [u8]) -> Answer {
        let record = &self.state.records[index];
        if record.halted() {
            self.probe.reach(Rule::InHalted);
            return self.handshake(reply, Pid::Stall);
        }
        let Some((buffer, armed)) = record.active(Side::In, &self.probe).and_then(|buffer| {
            let armed = *record.buffer(buffer)?;
            let spent = armed.left() == 0 && self.is(Wrong::EmptyInIsUsed);
            (!spent).then_some((buffer, armed))
        }) else {
            self.probe.reach(Rule::InNak);
            self.tell_not_skipped(index, Side::In);
            return self.handshake(reply, Pid::Nak);
        };
        let length = record.maximum.min(armed.left());
        let skipped = if self.is(Wrong::SendsFromBase) {
            0
        } else {
            armed.done
        };
        let from = (armed.base + skipped) as usize;
        let payload = &memory[from..from + length as usize];
        let sent = packet::write_data(record.in_toggle.pid(), payload, reply);
        self.sent(index, buffer, length);
        Answer::Reply(sent)
    }

    fn sent(&mut self, index: usize, buffer: Buffer, length: u32) {
        self.probe.reach(Rule::InSends);
        if length == 0 {
            self.probe.reach(Rule::InSendsEmpty);
        }
        if self.state.records[index].next != buffer {
            self.probe.reach(Rule::InMovesMark);
        }
        if !self.is(Wrong::FreshBufferOnRetry) {
            self.set_mark(index, buffer);
        }
        if self.is(Wrong::ToggleOnSend) {
            self.flip_in(index);
        }
        self.state.wait = Wait::Ack {
            record: index as u8,
            buffer,
            length,
        };
    }

    fn take_ack(&mut self, index: usize, buffer: Buffer, length: u32) -> Answer {
        if self.state.records[index].halted() {
            self.probe.reach(Rule::AckTakenHalted);
        }
        if !self.is(Wrong::ToggleOnSend) {
            self.flip_in(index);
        }
        if self.advance(index, buffer, length) == 0 {
            self.probe.reach(Rule::AckTakenUsed);
            self.use_up(index, buffer);
        } else {
            self.probe.reach(Rule::AckTakenLeft);
        }
        Answer::Silent
    }

    fn take_data(
        &mut self,
        index: usize,
        stage: Stage,
        memory: &mut [u8],
        packet: &[u8],
        reply: &mut [u8],
    ) -> Answer {
        let halted = self.state.records[index].halted();
        if halted && stage == Stage::Out && self.is(Wrong::HaltedBeforeNotGood) {
            return self.handshake(reply, Pid::Stall);
        }
        let Some(data) = packet::read_data(&self.probe, packet) else {
            self.probe.reach(Rule::NotGood);
            if halted {
                self.probe.reach(Rule::NotGoodHalted);
            }
            return self.record_silent(index, 1);
        };
        let toggle = match data.pid {
            Pid::Data0 => Toggle::Data0,
            Pid::Data1 => Toggle::Data1,
            _ => {
                self.probe.reach(Rule::DataTwo);
                return self.record_silent(index, 2);
            }
        };
        match stage {
            Stage::Setup => self.take_setup_data(index, toggle, data, memory, reply),
            Stage::Out => self.take_out_data(index, toggle, data, memory, reply),
        }
    }

    fn take_setup_data(
        &mut self,
        index: usize,
        toggle: Toggle,
        data: Data,
        memory: &mut [u8],
        reply: &mut [u8],
    ) -> Answer {
        let halted = self.state.records[index].halted();
        if halted && self.is(Wrong::StallSetup) {
            return self.handshake(reply, Pid::Stall);
        }
        let buffer = match self.setup_buffer(index, toggle, data) {
            Ok(buffer) => buffer,
            Err(rule) => {
                self.probe.reach(rule);
                if rule == Rule::SetupNoBuffer && self.is(Wrong::NakSetup) {
                    return self.handshake(reply, Pid::Nak);
                }
                return self.record_silent(index, 5);
            }
        };
        self.probe.reach(Rule::SetupStored);
        if halted {
            self.probe.reach(Rule::SetupUnhalts);
        }
        self.store(index, buffer, data.payload, memory);
        if self.state.records[index].maximum > 8 && self.is(Wrong::SetupEvent6) {
            self.set_event(index, 6);
        }
        let keeps_halt = self.is(Wrong::SetupStaysHalted);
        let keeps_in = self.is(Wrong::SetupKeepsInToggle);
        let record = &mut self.state.records[index];
        record.out_toggle = Toggle::Data1;
        if !keeps_in {
            record.in_toggle = Toggle::Data1;
        }
        if !keeps_halt {
            record.condition = Condition::Normal;
        }
        let full = self.state.records[index]
            .active(Side::Out, &self.probe)
            .is_none();
        let nyet = full && self.state.speed == Speed::High && self.is(Wrong::SetupNyet);
        self.handshake(reply, if nyet { Pid::Nyet } else { Pid::Ack })
    }

    /// The buffer for SETUP's eight bytes, or the cause of event 5.
    fn setup_buffer(&self, index: usize, toggle: Toggle, data: Data) -> Result<Buffer, Rule> {
        if toggle != Toggle::Data0 {
            return Err(Rule::SetupWrongPid);
        }
        if data.payload.len() != 8 {
            return Err(Rule::SetupWrongLength);
        }
        let active = self.state.records[index].active(Side::Out, &self.probe);
        active.ok_or(Rule::SetupNoBuffer)
    }

    fn take_out_data(
        &mut self,
        index: usize,
        toggle: Toggle,
        data: Data,
        memory: &mut [u8],
        reply: &mut [u8],
    ) -> Answer {
        let buffer = match self.out_buffer(index, toggle, data) {
            Ok(buffer) => buffer,
            Err((rule, pid)) => {
                self.probe.reach(rule);
                if rule == Rule::OutNoBuffer {
                    self.tell_not_skipped(index, Side::Out);
                }
                let all = self.is(Wrong::AckToAll);
                return self.handshake(reply, if all { Pid::Ack } else { pid });
            }
        };
        self.store(index, buffer, data.payload, memory);
        let record = &mut self.state.records[index];
        record.out_toggle = record.out_toggle.flipped();
        if data.payload.len() < record.maximum as usize {
            self.set_event(index, 6);
            let empty = data.payload.is_empty();
            self.probe.reach(if empty {
                Rule::StoredEmpty
            } else {
                Rule::StoredShort
            });
        }
        if self.answers_nyet(&self.state.records[index]) {
            self.probe.reach(Rule::Nyet);
            return self.handshake(reply, Pid::Nyet);
        }
        let record = &self.state.records[index];
        let full = record.active(Side::Out, &self.probe).is_none();
        if full && self.state.speed == Speed::High {
            self.probe.reach(Rule::InterruptAck);
        }
        self.handshake(reply, Pid::Ack)
    }

    /// The other buffer could serve, but order would be lost.
    fn tell_not_skipped(&mut self, index: usize, side: Side) {
        let record = &self.state.records[index];
        let other = record.buffer(record.chosen(side).other());
        if record.kind != Kind::Control && other.is_some_and(|other| !other.used) {
            self.probe.reach(Rule::UsedNotSkipped);
        }
    }

    /// The buffer for an OUT payload, or the rule and handshake that store nothing.
    fn out_buffer(&self, index: usize, toggle: Toggle, data: Data) -> Result<Buffer, (Rule, Pid)> {
        let record = &self.state.records[index];
        let active = record.active(Side::Out, &self.probe);
        let above = data.payload.len() > record.maximum as usize;
        if record.halted() {
            return Err((Rule::OutHalted, Pid::Stall));
        }
        if above && self.is(Wrong::MaximumBeforeRepeat) {
            return Err((Rule::OutAboveMaximum, Pid::Nak));
        }
        if toggle != record.out_toggle {
            let nak = active.is_none() && self.is(Wrong::NakRepeatWhenFull);
            let rule = match active {
                Some(_) => Rule::OutRepeat,
                None => Rule::OutRepeatFull,
            };
            return Err((rule, if nak { Pid::Nak } else { Pid::Ack }));
        }
        let buffer = active.ok_or((Rule::OutNoBuffer, Pid::Nak))?;
        if above {
            return Err((Rule::OutAboveMaximum, Pid::Nak));
        }
        Ok(buffer)
    }

    fn answers_nyet(&self, record: &Record) -> bool {
        let fast = self.state.speed == Speed::High || self.is(Wrong::NyetFullSpeed);
        let kept = record.transfer != Transfer::Interrupt || self.is(Wrong::NyetInterrupt);
        fast && kept && record.active(Side::Out, &self.probe).is_none()
    }

    fn store(&mut self, index: usize, buffer: Buffer, payload: &[u8], memory: &mut [u8]) {
        if !self.probe.stores() {
            return;
        }
        let record = &self.state.records[index];
        if let Some(armed) = record.buffer(buffer) {
            let from = (armed.base + armed.done) as usize;
            memory[from..from + payload.len()].copy_from_slice(payload);
            if self.is(Wrong::StoresPastPayload) {
                spill(memory, from + payload.len());
            }
        }
        let maximum = record.maximum;
        if self.advance(index, buffer, payload.len() as u32) < maximum {
            self.probe.reach(Rule::StoredUsed);
            self.use_up(index, buffer);
        } else {
            self.probe.reach(Rule::StoredLeft);
            self.set_mark(index, buffer);
        }
    }

    /// Lets done grow and returns what is left.
    fn advance(&mut self, index: usize, buffer: Buffer, length: u32) -> u32 {
        self.state.records[index].buffers[buffer.index()]
            .as_mut()
            .map_or(0, |armed| {
                armed.done += length;
                armed.left()
            })
    }

    /// Marks the buffer used, tells the firmware and moves on to the other one.
    fn use_up(&mut self, index: usize, buffer: Buffer) {
        if let Some(armed) = &mut self.state.records[index].buffers[buffer.index()] {
            armed.used = true;
        }
        self.set_event(index, 3 + buffer.index());
        if !self.is(Wrong::MarkStays) {
            self.set_mark(index, buffer.other());
        }
    }

    fn set_mark(&mut self, index: usize, buffer: Buffer) {
        let record = &self.state.records[index];
        if !(record.kind == Kind::Control && self.is(Wrong::ControlMarkStays)) {
            self.state.records[index].next = buffer;
        }
    }

    fn flip_in(&mut self, index: usize) {
        let record = &mut self.state.records[index];
        record.in_toggle = record.in_toggle.flipped();
    }

    fn set_event(&mut self, index: usize, event: usize) {
        self.state.records[index].events |= 1 << event;
    }

    fn record_silent(&mut self, index: usize, event: usize) -> Answer {
        self.set_event(index, event);
        Answer::Silent
    }

    fn system_silent(&mut self, event: u32) -> Answer {
        self.state.events |= 1 << event;
        Answer::Silent
    }

    fn silent(&mut self, rule: Rule) -> Answer {
        self.probe.reach(rule);
        Answer::Silent
    }

    fn handshake(&self, reply: &mut [u8], pid: Pid) -> Answer {
        reply[0] = pid.byte();
        Answer::Reply(1)
    }
}

/// A byte written past the stretch: only a wrong core does it.
fn spill(memory: &mut [u8], at: usize) {
    if let Some(byte) = memory.get_mut(at) {
        *byte = !*byte;
    }
}

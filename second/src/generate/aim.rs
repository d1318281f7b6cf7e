//! Short runs that reach one packet rule, or one refusal of one call.

use super::Generator;
use crate::packet::Pid;
use crate::probe::{Call, Rule};
use crate::script::{kind_word, transfer_word};
use crate::state::{Buffer, Kind, Record, Side, Speed, Transfer, Wait};
use crate::Plain;

fn out_side(record: &Record) -> bool {
    record.serves(Side::Out)
}

fn in_side(record: &Record) -> bool {
    record.serves(Side::In)
}

fn control(record: &Record) -> bool {
    record.kind == Kind::Control
}

fn pinged(record: &Record) -> bool {
    out_side(record) && record.transfer != Transfer::Interrupt
}

fn interrupt_out(record: &Record) -> bool {
    record.kind == Kind::Out && record.transfer == Transfer::Interrupt
}

/// The speed that a rule needs.
pub(super) fn speed(rule: Rule) -> Option<Speed> {
    match rule {
        Rule::PingFullSpeed => Some(Speed::Full),
        Rule::PingInterrupt | Rule::PingHalted | Rule::PingAck => Some(Speed::High),
        Rule::PingNak | Rule::Nyet | Rule::InterruptAck => Some(Speed::High),
        _ => None,
    }
}

impl Generator {
    pub(super) fn aim(&mut self, rule: Rule) {
        match rule {
            Rule::DataWaitEnded | Rule::AckWaitEnded | Rule::LongAck | Rule::SofInWait => {
                self.aim_ended_wait(rule)
            }
            Rule::EmptyInWait | Rule::TimeoutInDataWait | Rule::TimeoutInAckWait => {
                self.aim_ended_wait(rule)
            }
            Rule::OutWaits | Rule::SetupWaits | Rule::SetupNotControl => self.aim_token(rule),
            Rule::PingFullSpeed | Rule::PingInterrupt | Rule::PingHalted => self.aim_ping(rule),
            Rule::PingAck | Rule::PingNak => self.aim_ping(rule),
            Rule::InHalted | Rule::InNak | Rule::InSends => self.aim_in(rule),
            Rule::InSendsEmpty | Rule::InMovesMark => self.aim_in(rule),
            Rule::AckTakenLeft | Rule::AckTakenUsed | Rule::AckTakenHalted => self.aim_ack(rule),
            Rule::NotGood | Rule::NotGoodHalted | Rule::DataTwo => self.aim_bad_data(rule),
            Rule::SetupStored | Rule::SetupUnhalts | Rule::SetupNoBuffer => self.aim_setup(rule),
            Rule::SetupWrongPid | Rule::SetupWrongLength => self.aim_setup(rule),
            Rule::OutHalted | Rule::OutRepeat | Rule::OutRepeatFull => self.aim_out(rule),
            Rule::OutNoBuffer | Rule::OutAboveMaximum | Rule::Nyet => self.aim_out(rule),
            Rule::StoredShort | Rule::StoredEmpty | Rule::InterruptAck => self.aim_out(rule),
            Rule::UsedNotSkipped => self.aim_not_skipped(),
            Rule::StoredUsed | Rule::StoredLeft => self.aim_out(rule),
            _ => self.aim_unawaited(rule),
        }
        if self.random.chance(40) {
            self.say("state");
        }
    }

    /// Packets that are read with no wait and reach no record.
    fn aim_unawaited(&mut self, rule: Rule) {
        self.quiet();
        match rule {
            Rule::TimeoutWithoutWait => self.call("timeout"),
            Rule::Empty => self.packet(&[]),
            Rule::WrongPidCheck => self.unchecked_packet(),
            Rule::DataWithoutWait => self.stray_data(),
            Rule::HandshakeWithoutWait => self.handshake_packet(),
            Rule::PreSplitReserved => self.odd_packet(),
            Rule::TokenLength => self.short_token(),
            Rule::TokenCheck => self.token_with_wrong_check(),
            Rule::Sof => self.sof_packet(),
            Rule::OtherAddress => self.foreign_token(),
            _ => self.unserved_token(),
        }
    }

    fn aim_ended_wait(&mut self, rule: Rule) {
        let ack = matches!(
            rule,
            Rule::AckWaitEnded | Rule::LongAck | Rule::TimeoutInAckWait
        ) || matches!(rule, Rule::SofInWait | Rule::EmptyInWait)
            && self.random.chance(50);
        if ack {
            self.reach_ack_wait();
        } else {
            self.reach_data_wait(out_side);
        }
        match rule {
            Rule::LongAck => {
                let tail = self.random.pick(&[1, 1, 2, 8]);
                self.packet_with_tail(Pid::Ack, tail);
            }
            Rule::SofInWait => self.sof_packet(),
            Rule::EmptyInWait => self.packet(&[]),
            Rule::TimeoutInDataWait | Rule::TimeoutInAckWait => self.call("timeout"),
            _ => self.begin_wait(),
        }
    }

    fn aim_token(&mut self, rule: Rule) {
        let (pid, index) = match rule {
            Rule::OutWaits => (Pid::Out, self.wanted(None, out_side)),
            Rule::SetupWaits => (Pid::Setup, self.wanted(None, control)),
            _ => (
                Pid::Setup,
                self.wanted(None, |record| record.kind == Kind::Out),
            ),
        };
        self.quiet();
        self.token_to(pid, index);
    }

    fn aim_ping(&mut self, rule: Rule) {
        let index = match rule {
            Rule::PingFullSpeed => self.wanted(speed(rule), out_side),
            Rule::PingInterrupt => self.wanted(speed(rule), interrupt_out),
            _ => self.wanted(speed(rule), pinged),
        };
        self.quiet();
        match rule {
            Rule::PingFullSpeed => {}
            Rule::PingInterrupt => {
                let halted = self.random.chance(60);
                self.set_halted(index, halted);
            }
            _ => self.set_halted(index, rule == Rule::PingHalted),
        }
        match rule {
            Rule::PingAck => self.make_ready(index, Side::Out),
            Rule::PingNak => self.make_unready(index, Side::Out),
            _ => {}
        }
        self.token_to(Pid::Ping, index);
    }

    fn aim_in(&mut self, rule: Rule) {
        let index = match rule {
            Rule::InMovesMark => self.wanted(None, |record| record.kind == Kind::In),
            _ => self.wanted(None, in_side),
        };
        self.quiet();
        self.set_halted(index, rule == Rule::InHalted);
        match rule {
            Rule::InHalted => {}
            Rule::InNak => self.make_unready(index, Side::In),
            Rule::InSendsEmpty => self.make_chosen(index, Side::In, 0),
            Rule::InMovesMark => self.make_other_ready(index),
            _ => self.make_ready(index, Side::In),
        }
        self.token_to(Pid::In, index);
        if rule == Rule::InMovesMark {
            self.retry_after_arming(index);
        }
    }

    /// The firmware arms the other buffer before the host retries.
    fn retry_after_arming(&mut self, index: usize) {
        let other = self.record(index).next.other();
        self.arm(index, other);
        if self.random.chance(70) {
            self.call("timeout");
        }
        self.token_to(Pid::In, index);
        self.packet(&[Pid::Ack.byte()]);
    }

    fn aim_ack(&mut self, rule: Rule) {
        let index = self.wanted(None, in_side);
        self.quiet();
        self.set_halted(index, false);
        let maximum = self.record(index).maximum;
        let length = match rule {
            Rule::AckTakenLeft => maximum + self.random.between(1, 9),
            _ => self.random.below(maximum + 1),
        };
        self.make_chosen(index, Side::In, length);
        self.token_to(Pid::In, index);
        if rule == Rule::AckTakenHalted {
            self.say(&format!("force record {index} condition halted"));
        }
        self.packet(&[Pid::Ack.byte()]);
    }

    fn aim_bad_data(&mut self, rule: Rule) {
        let index = self.reach_data_wait(out_side);
        if rule == Rule::NotGoodHalted && !self.record(index).halted() {
            self.quiet();
            self.set_halted(index, true);
            self.token_to(Pid::Out, index);
        }
        if rule == Rule::DataTwo {
            let pid = self.random.pick(&[Pid::Data2, Pid::Mdata]);
            let packet = self.data_packet(pid, 8);
            return self.packet(&packet);
        }
        let packet = self.bad_data();
        self.packet(&packet);
    }

    /// A data packet that is not good: cut, lengthened or damaged behind its PID.
    pub(super) fn bad_data(&mut self) -> Vec<u8> {
        let pid = self
            .random
            .pick(&[Pid::Data0, Pid::Data1, Pid::Data2, Pid::Mdata]);
        let length = self.random.pick(&[0, 0, 1, 8, 8, 20]);
        let mut packet = self.data_packet(pid, length);
        let end = packet.len();
        match self.random.below(6) {
            0 => packet.truncate(self.random.between(1, 2) as usize),
            1 => packet.push(self.random.byte() | 1),
            2 => packet[end - 1] ^= 1 << self.random.below(8),
            3 => packet[end - 2] ^= 1 << self.random.below(8),
            4 => packet[end - 2..].iter_mut().for_each(|byte| *byte ^= 0xFF),
            // One byte too long, though its check is right.
            _ => packet = self.data_packet(pid, 1025),
        }
        packet
    }

    fn aim_setup(&mut self, rule: Rule) {
        let index = self.wanted(None, control);
        self.quiet();
        let halted = rule == Rule::SetupUnhalts || self.random.chance(20);
        self.set_halted(index, halted);
        match rule {
            Rule::SetupNoBuffer => self.make_unready(index, Side::Out),
            _ => self.make_ready(index, Side::Out),
        }
        self.token_to(Pid::Setup, index);
        let pid = match rule {
            Rule::SetupWrongPid => Pid::Data1,
            _ => Pid::Data0,
        };
        let length = match rule {
            Rule::SetupWrongLength => self.random.pick(&[0, 1, 7, 9, 16, 64]),
            _ => 8,
        };
        let packet = self.data_packet(pid, length);
        self.packet(&packet);
    }

    fn aim_out(&mut self, rule: Rule) {
        let index = match rule {
            Rule::Nyet => self.wanted(speed(rule), pinged),
            Rule::InterruptAck => self.wanted(speed(rule), interrupt_out),
            _ => self.wanted(None, out_side),
        };
        self.quiet();
        self.set_halted(index, rule == Rule::OutHalted);
        let maximum = self.record(index).maximum;
        match rule {
            Rule::OutNoBuffer | Rule::OutRepeatFull => self.make_unready(index, Side::Out),
            Rule::StoredLeft => self.make_chosen(index, Side::Out, 2 * maximum),
            Rule::Nyet | Rule::InterruptAck => self.make_chosen(index, Side::Out, maximum),
            _ => self.make_ready(index, Side::Out),
        }
        self.token_to(Pid::Out, index);
        let packet = self.out_data(rule, index);
        self.packet(&packet);
    }

    fn out_data(&mut self, rule: Rule, index: usize) -> Vec<u8> {
        let Record {
            maximum,
            out_toggle,
            ..
        } = *self.record(index);
        let any = self.random.below(maximum.min(24) + 1);
        let above = maximum + self.random.between(1, 3);
        let length = match rule {
            Rule::OutAboveMaximum => above.min(1024),
            Rule::OutRepeat | Rule::OutRepeatFull => self.random.pick(&[any, any, above.min(1024)]),
            Rule::StoredEmpty => 0,
            Rule::StoredShort | Rule::Nyet => self
                .random
                .between(1, maximum.saturating_sub(1).clamp(1, 30)),
            Rule::StoredUsed | Rule::StoredLeft => maximum,
            Rule::InterruptAck => self.random.pick(&[1, maximum.min(64)]),
            _ => any,
        };
        let toggle = match rule {
            Rule::OutRepeat | Rule::OutRepeatFull => out_toggle.flipped(),
            _ => out_toggle,
        };
        self.data_packet(toggle.pid(), length as usize)
    }

    /// Both buffers are armed and the marked one is used.
    fn aim_not_skipped(&mut self) {
        let index = self.wanted(None, |record| record.kind != Kind::Control);
        self.quiet();
        self.set_halted(index, false);
        for buffer in Buffer::BOTH {
            self.free(index, buffer);
            self.arm_somewhere(index, buffer, None);
        }
        let Record { next, kind, .. } = *self.record(index);
        if let Some(armed) = self.record(index).buffers[next.index()] {
            let (base, length) = (armed.base, armed.length);
            let next = next.index();
            self.say(&format!(
                "force buffer {index} {next} {base} {length} {length} 1"
            ));
        }
        if kind == Kind::In {
            return self.token_to(Pid::In, index);
        }
        self.token_to(Pid::Out, index);
        let packet = self.out_data(Rule::OutNoBuffer, index);
        self.packet(&packet);
    }

    fn reach_data_wait(&mut self, fits: fn(&Record) -> bool) -> usize {
        let index = self.wanted(None, fits);
        self.quiet();
        self.token_to(Pid::Out, index);
        index
    }

    fn reach_ack_wait(&mut self) -> usize {
        let index = self.wanted(None, in_side);
        self.quiet();
        self.set_halted(index, false);
        self.make_ready(index, Side::In);
        self.token_to(Pid::In, index);
        index
    }

    pub(super) fn set_halted(&mut self, index: usize, halted: bool) {
        if self.record(index).halted() != halted {
            let word = if halted { "halt" } else { "clear" };
            self.call(&format!("{word} {index}"));
        }
    }

    fn active(&self, index: usize, side: Side) -> Option<Buffer> {
        self.record(index).active(side, &Plain)
    }

    pub(super) fn make_ready(&mut self, index: usize, side: Side) {
        if self.active(index, side).is_none() {
            let buffer = self.record(index).chosen(side);
            self.arm_somewhere(index, buffer, None);
        }
    }

    /// Arms where there is room; used buffers make room.
    fn arm_somewhere(&mut self, index: usize, buffer: Buffer, length: Option<u32>) {
        let length = length.unwrap_or_else(|| self.good_length(index, buffer));
        if self.arm_length(index, buffer, length) {
            return;
        }
        for other in 0..16 {
            for which in Buffer::BOTH {
                if self.record(other).buffer(which).is_some() && self.random.chance(60) {
                    self.call(&format!("disarm {other} {}", which.index()));
                }
            }
        }
        self.arm_length(index, buffer, length);
    }

    /// Both ways to have no active buffer: nothing armed, or the marked one used.
    pub(super) fn make_unready(&mut self, index: usize, side: Side) {
        for _ in 0..2 {
            let Some(buffer) = self.active(index, side) else {
                return;
            };
            let armed = self.record(index).buffers[buffer.index()];
            match armed {
                Some(armed) if self.random.chance(50) => {
                    let (base, length) = (armed.base, armed.length);
                    let buffer = buffer.index();
                    self.say(&format!(
                        "force buffer {index} {buffer} {base} {length} {length} 1"
                    ));
                }
                _ => self.call(&format!("disarm {index} {}", buffer.index())),
            }
        }
    }

    /// The buffer that comes next, armed anew with this length.
    fn make_chosen(&mut self, index: usize, side: Side, length: u32) {
        let buffer = self.record(index).chosen(side);
        if self.record(index).buffer(buffer).is_some() {
            self.call(&format!("disarm {index} {}", buffer.index()));
        }
        let buffer = match self.record(index).kind {
            Kind::Control => buffer,
            _ => {
                let other = self.record(index).chosen(side);
                if self.record(index).buffer(other).is_some() {
                    self.call(&format!("disarm {index} {}", other.index()));
                }
                self.random.pick(&Buffer::BOTH)
            }
        };
        self.arm_somewhere(index, buffer, Some(length));
    }

    /// The marked buffer is unallocated and the other one ready.
    fn make_other_ready(&mut self, index: usize) {
        for buffer in Buffer::BOTH {
            if self.record(index).buffer(buffer).is_some() {
                self.call(&format!("disarm {index} {}", buffer.index()));
            }
        }
        let other = self.record(index).next.other();
        self.arm_somewhere(index, other, None);
    }

    pub(super) fn aim_refusal(&mut self, call: Call, number: u32) {
        match (call, number) {
            (_, 1) => self.unsound_call(call),
            (Call::Packet, _) => {
                let index = self.wanted(None, out_side);
                let token = self.token_for(Pid::Out, index);
                let line = format!("packet {}", self.hex(&token));
                self.refused_lend(number, &line);
            }
            (Call::Timeout, _) => self.refused_lend(number, "timeout"),
            (Call::Encode, 3) => {
                let pid = self.random.pick(&[3, 3, 11, 1]);
                self.refused_lend(3, &format!("encode {pid} 00FF"));
            }
            (Call::Encode, _) => self.refused_encode(),
            (Call::Frame, _) => self.refused_frame(),
            (Call::Start, _) => self.refused_start(),
            (Call::Address, _) => {
                let address = self.random.pick(&[128, 129, 255, 256, 4_294_967_295u32]);
                self.call(&format!("address {address}"));
            }
            (_, 4) => self.refused_index(call),
            (_, 5) => self.refused_in_use(call),
            (Call::Configure, _) => self.refused_configure(number),
            (Call::Arm, 10 | 12 | 13) => self.refused_arm(number),
            _ => self.refused_buffer(call, number),
        }
    }

    fn refused_frame(&mut self) {
        let number = self.random.pick(&[2048, 2049, 65_536, 4_294_967_295u32]);
        self.say(&format!("frame {number}"));
    }

    /// The line of a record call with this index.
    pub(super) fn record_call(&mut self, call: Call, index: u32, buffer: u32) -> String {
        match call {
            Call::Configure => {
                let number = self.random.below(17);
                format!("configure {index} normal out bulk {number} 8")
            }
            Call::ConfigureOff => format!("configure {index} off"),
            Call::Arm => {
                let base = self.random.below(200);
                format!("arm {index} {buffer} {base} 8")
            }
            Call::Disarm => format!("disarm {index} {buffer}"),
            Call::Halt => format!("halt {index}"),
            Call::Clear => format!("clear {index}"),
            _ => format!("events {index}"),
        }
    }

    fn refused_index(&mut self, call: Call) {
        let (index, buffer) = (self.beyond_index(), self.edge_buffer());
        let line = self.record_call(call, index, buffer);
        self.call(&line);
    }

    /// The record is waited on, or one of its buffers is armed.
    fn refused_in_use(&mut self, call: Call) {
        let index = if self.random.chance(50) {
            self.reach_ack_wait()
        } else {
            self.reach_data_wait(out_side)
        };
        let armed = self.indexes(|record| record.buffers != [None, None]);
        let configures = matches!(call, Call::Configure | Call::ConfigureOff);
        let index = match self.random.any(&armed) {
            Some(armed) if configures && self.random.chance(50) => armed,
            _ => index,
        };
        let buffer = self.edge_buffer();
        let line = self.record_call(call, index as u32, buffer);
        self.call(&line);
    }

    fn refused_configure(&mut self, number: u32) {
        if self.idle_index().is_none() {
            let speed = self.state().speed;
            self.set_up(speed);
        }
        let Some(index) = self.idle_index() else {
            return;
        };
        if number == 6 {
            for _ in 0..3 {
                self.edge_configure();
            }
            return self.call(&format!("configure {index} halted in bulk 1 64"));
        }
        let mut others = self.indexes(Record::live);
        others.retain(|&other| other != index);
        let Some(other) = self.random.any(&others) else {
            return;
        };
        let Record { kind, number, .. } = *self.record(other);
        let (kind, transfer) = match kind {
            Kind::Control => self.random.pick(&super::CLASSES),
            kind => self.random.pick(&[
                (kind, Transfer::Bulk),
                (kind, Transfer::Interrupt),
                (Kind::Control, Transfer::Control),
            ]),
        };
        let maximum = self.good_maximum(transfer);
        let condition = self.random.pick(&["normal", "normal", "normal", "halted"]);
        let (kind, transfer) = (kind_word(kind), transfer_word(transfer));
        self.call(&format!(
            "configure {index} {condition} {kind} {transfer} {number} {maximum}"
        ));
    }

    /// Refusals 10, 12 and 13 of arm.
    fn refused_arm(&mut self, number: u32) {
        let side = self.random.pick(&[Side::Out, Side::In]);
        let index = self.wanted(None, |record| record.serves(side));
        self.quiet();
        self.make_ready(index, side);
        let Some(buffer) = self.active(index, side) else {
            return;
        };
        let Some(armed) = self.record(index).buffers[buffer.index()] else {
            return;
        };
        let which = buffer.index();
        match number {
            10 => {
                let base = self.random.pick(&[armed.base, 0, 131_071]);
                let length = self.random.pick(&[armed.length, 3, 16_384]);
                self.call(&format!("arm {index} {which} {base} {length}"));
            }
            12 => {
                self.call(&format!("disarm {index} {which}"));
                for _ in 0..3 {
                    self.edge_arm();
                }
                self.call(&format!("arm {index} {which} {} 1024", self.state().memory));
            }
            _ => self.refused_shared(),
        }
    }

    /// Spans that share a byte with another one, used or not.
    fn refused_shared(&mut self) {
        let other = self.wanted(None, pinged);
        self.quiet();
        self.make_ready(other, Side::Out);
        if self.random.chance(40) {
            self.make_unready(other, Side::Out);
        }
        let index = self.wanted(None, |record| record.kind == Kind::In);
        let buffer = self.random.pick(&Buffer::BOTH);
        self.free(index, buffer);
        let which = buffer.index();
        let length = self.record(index).maximum;
        let base = self.touching_base(length);
        self.call(&format!("arm {index} {which} {base} {length}"));
        self.free(index, buffer);
        let mut spans = self.other_spans(index, buffer);
        spans.retain(|span| span.length > 0);
        if let Some(span) = self.random.any(&spans) {
            let last = span.base + span.length - 1;
            let base = self.random.pick(&[span.base, last]);
            self.call(&format!("arm {index} {which} {base} 1"));
        }
    }

    /// Refusals 8, 9 and 11.
    fn refused_buffer(&mut self, call: Call, number: u32) {
        let index = match number {
            8 => self.off_index().unwrap_or(0),
            _ => self.wanted(None, |_| true),
        };
        if self.state().wait.record() == Some(index) {
            self.quiet();
        }
        let buffer = match number {
            9 => self.beyond_buffer(),
            11 => {
                let buffer = self.random.below(2);
                self.say(&format!("disarm {index} {buffer}"));
                buffer
            }
            _ => self.edge_buffer(),
        };
        let line = self.record_call(call, index as u32, buffer);
        self.call(&line);
    }

    /// Whether a wait of any kind is on.
    pub(super) fn waiting(&self) -> bool {
        self.state().wait != Wait::Nothing
    }
}

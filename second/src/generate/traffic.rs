//! Traffic like a host's, with loss, damage and retries, and firmware in between.

use super::Generator;
use crate::packet::{self, Pid};
use crate::state::{Buffer, Kind, Record, Side, Stage, Toggle, Wait};

const HANDSHAKES: [Pid; 4] = [Pid::Ack, Pid::Nak, Pid::Stall, Pid::Nyet];
const DATA: [Pid; 4] = [Pid::Data0, Pid::Data1, Pid::Data2, Pid::Mdata];
const TOKENS: [Pid; 5] = [Pid::Out, Pid::In, Pid::Setup, Pid::Ping, Pid::Sof];

impl Generator {
    pub(super) fn traffic(&mut self, steps: u32) {
        for _ in 0..steps {
            match self.random.below(100) {
                0..=65 => self.host_step(),
                66..=88 => self.firmware_step(),
                89..=91 => self.edge_call(),
                92..=93 => self.bad_line(),
                94 => self.lend_step(),
                _ => self.look_around(),
            }
        }
    }

    pub(super) fn host_step(&mut self) {
        match self.state().wait {
            Wait::Nothing => self.token_step(),
            Wait::Data { record, stage } => self.data_step(usize::from(record), stage),
            Wait::Ack { record, .. } => self.ack_step(usize::from(record)),
        }
    }

    fn token_step(&mut self) {
        let Some(index) = self.live_index() else {
            return self.populate();
        };
        if self.random.chance(12) {
            return self.stray();
        }
        let pids: &[Pid] = match self.record(index).kind {
            Kind::Out => &[
                Pid::Out,
                Pid::Out,
                Pid::Out,
                Pid::Out,
                Pid::Ping,
                Pid::Setup,
            ],
            Kind::In => &[
                Pid::In,
                Pid::In,
                Pid::In,
                Pid::In,
                Pid::In,
                Pid::In,
                Pid::Out,
            ],
            Kind::Control => &[
                Pid::Setup,
                Pid::Setup,
                Pid::Out,
                Pid::Out,
                Pid::In,
                Pid::In,
                Pid::Ping,
            ],
        };
        let pid = self.random.pick(pids);
        let token = self.token_for(pid, index).to_vec();
        self.send(token);
    }

    fn data_step(&mut self, index: usize, stage: Stage) {
        match self.random.below(100) {
            0..=86 => {
                let pid = self.data_pid(self.record(index).out_toggle, stage);
                let length = self.payload_length(index, stage);
                let packet = self.data_packet(pid, length);
                self.send(packet);
            }
            87..=92 => self.call("timeout"),
            _ => self.stray(),
        }
    }

    /// One of the record's spans with a byte on each side.
    pub(super) fn show_span(&mut self, index: usize) {
        if let Some((base, length)) = self.chosen_span(index) {
            let from = base.saturating_sub(1);
            let length = length.min(80) + 2;
            self.say(&format!("show {from} {length}"));
        }
    }

    fn ack_step(&mut self, index: usize) {
        match self.random.below(100) {
            0..=74 => self.packet(&[Pid::Ack.byte()]),
            75..=82 => self.call("timeout"),
            83..=89 => self.token_to(Pid::In, index),
            90..=92 => self.packet(&[Pid::Ack.byte(), 0]),
            _ => self.stray(),
        }
    }

    fn data_pid(&mut self, toggle: Toggle, stage: Stage) -> Pid {
        let due = match stage {
            Stage::Setup => Pid::Data0,
            Stage::Out => toggle.pid(),
        };
        if self.random.chance(84) {
            due
        } else {
            self.random.pick(&[
                Pid::Data0,
                Pid::Data1,
                Pid::Data0,
                Pid::Data1,
                Pid::Data2,
                Pid::Mdata,
            ])
        }
    }

    /// Full payloads of large records are rare, to keep lines short.
    fn payload_length(&mut self, index: usize, stage: Stage) -> usize {
        let maximum = self.record(index).maximum;
        let full_chance = if maximum > 64 { 10 } else { 50 };
        let length = match stage {
            Stage::Setup if self.random.chance(85) => 8,
            Stage::Setup => self.random.pick(&[0, 7, 9, 64]),
            Stage::Out if self.random.chance(full_chance) => maximum,
            Stage::Out if maximum > 64 && self.random.chance(90) => self.random.below(24),
            Stage::Out => {
                let any = self.random.below(maximum + 1);
                self.random
                    .pick(&[0, 0, 1, maximum.saturating_sub(1), maximum + 1, any, any])
            }
        };
        length as usize
    }

    pub(super) fn data_packet(&mut self, pid: Pid, length: usize) -> Vec<u8> {
        let payload = self.random.bytes(length);
        let mut packet = vec![0; length + 3];
        packet::write_data(pid, &payload, &mut packet);
        packet
    }

    /// A packet that the bus may damage.
    fn send(&mut self, mut packet: Vec<u8>) {
        if self.random.chance(7) {
            self.damage(&mut packet);
        }
        self.packet(&packet);
    }

    pub(super) fn damage(&mut self, packet: &mut Vec<u8>) {
        match self.random.below(6) {
            0 => packet.truncate(packet.len().saturating_sub(1)),
            1 => packet.truncate(self.random.below(packet.len() as u32) as usize),
            2 => packet.push(self.random.byte()),
            3 => packet[0] = self.random.pick(&Pid::ALL).byte(),
            _ => {
                let bit = self.random.below(packet.len() as u32 * 8);
                packet[bit as usize / 8] ^= 1 << (bit % 8);
            }
        }
    }

    /// A packet that nobody asked for.
    pub(super) fn stray(&mut self) {
        match self.random.below(12) {
            0 => self.packet(&[]),
            1 => self.unchecked_packet(),
            2 => self.handshake_packet(),
            3 => self.stray_data(),
            4 => self.odd_packet(),
            5 => self.short_token(),
            6 => self.token_with_wrong_check(),
            7 | 8 => self.sof_packet(),
            9 => self.foreign_token(),
            10 => self.unserved_token(),
            _ => self.random_packet(),
        }
    }

    pub(super) fn unchecked_packet(&mut self) {
        let pid = self.random.pick(&Pid::ALL).byte();
        let wrong = pid ^ self.random.pick(&[0x01, 0x08, 0x10, 0x80, 0x42]);
        let length = self.random.pick(&[0, 0, 2, 2, 10]);
        let mut packet = self.random.bytes(length);
        packet.insert(0, wrong);
        self.packet(&packet);
    }

    pub(super) fn handshake_packet(&mut self) {
        let pid = self.random.pick(&HANDSHAKES);
        let tail = self.random.pick(&[0, 0, 0, 1, 2]);
        self.packet_with_tail(pid, tail);
    }

    pub(super) fn odd_packet(&mut self) {
        let pid = self.random.pick(&[Pid::Pre, Pid::Split, Pid::Reserved]);
        let tail = self.random.pick(&[0, 0, 2, 3]);
        self.packet_with_tail(pid, tail);
    }

    pub(super) fn packet_with_tail(&mut self, pid: Pid, tail: usize) {
        let mut packet = self.random.bytes(tail);
        packet.insert(0, pid.byte());
        self.packet(&packet);
    }

    pub(super) fn stray_data(&mut self) {
        let pid = self.random.pick(&DATA);
        let length = self.random.pick(&[0, 1, 8]);
        let packet = self.data_packet(pid, length);
        self.send(packet);
    }

    fn any_token(&mut self) -> Vec<u8> {
        let pid = self.random.pick(&TOKENS);
        let index = self.live_index().unwrap_or(0);
        self.token_for(pid, index).to_vec()
    }

    pub(super) fn short_token(&mut self) {
        let mut token = self.any_token();
        match self.random.below(4) {
            0 => token.truncate(1),
            1 => token.truncate(2),
            2 => token.push(0),
            _ => token.extend_from_within(..),
        }
        self.packet(&token);
    }

    pub(super) fn token_with_wrong_check(&mut self) {
        let mut token = self.any_token();
        token[2] ^= 1 << self.random.between(3, 7);
        self.packet(&token);
    }

    pub(super) fn sof_packet(&mut self) {
        let any = self.random.below(2048);
        let number = self.random.pick(&[0, 1, 2047, 1024, any]);
        self.packet(&packet::token(Pid::Sof, number as u16));
        if self.random.chance(15) {
            self.say(&format!("frame {number}"));
        }
    }

    pub(super) fn foreign_token(&mut self) {
        let address = self.state().address;
        let flipped = address ^ 1 << self.random.below(7);
        let foreign = self.random.pick(&[0, flipped, flipped]);
        let number = self
            .live_index()
            .map_or(0, |index| self.record(index).number);
        let pid = self
            .random
            .pick(&[Pid::Out, Pid::In, Pid::Setup, Pid::Ping]);
        self.packet(&packet::token(
            pid,
            packet::place(foreign & 0x7F, number & 15),
        ));
    }

    /// A token to a number that its side does not serve.
    pub(super) fn unserved_token(&mut self) {
        let pid = self
            .random
            .pick(&[Pid::Out, Pid::In, Pid::In, Pid::Setup, Pid::Ping]);
        let side = if pid == Pid::In { Side::In } else { Side::Out };
        let number = self.random.below(16) as u8;
        let unserved = (0..16).map(|step| (number + step) % 16);
        let number = unserved
            .into_iter()
            .find(|&number| self.state().find(side, number).is_none());
        if let Some(number) = number {
            let place = packet::place(self.state().address & 0x7F, number);
            self.packet(&packet::token(pid, place));
        }
    }

    fn random_packet(&mut self) {
        let length = self.random.pick(&[1, 2, 3, 4, 9, 30]);
        let mut packet = self.random.bytes(length);
        packet[0] = self.random.pick(&Pid::ALL).byte();
        self.packet(&packet);
    }

    pub(super) fn firmware_step(&mut self) {
        let Some(index) = self.live_index() else {
            return self.populate();
        };
        match self.random.below(100) {
            0..=54 => self.serve_buffers(index),
            55..=62 => {
                let buffer = self.random.below(2);
                self.call(&format!("disarm {index} {buffer}"));
            }
            63..=68 => self.call(&format!("halt {index}")),
            69..=75 => self.clear_some(),
            76..=86 => self.call(&format!("events {index}")),
            87..=90 => self.call("events"),
            91..=93 => self.reconfigure(index),
            94..=95 => {
                let address = self.random.below(128);
                self.call(&format!("address {address}"));
            }
            96 => self.reset(),
            _ => self.fill_span(index),
        }
    }

    /// Arms what is not armed or used; an unfinished buffer is disarmed now and then.
    fn serve_buffers(&mut self, index: usize) {
        for buffer in Buffer::BOTH {
            let unfinished = self
                .record(index)
                .buffer(buffer)
                .is_some_and(|armed| !armed.used);
            if !unfinished && self.random.chance(75) {
                self.arm(index, buffer);
            } else if unfinished && self.random.chance(6) {
                self.call(&format!("disarm {index} {}", buffer.index()));
            }
        }
    }

    fn clear_some(&mut self) {
        let halted = self.indexes(Record::halted);
        let index = self.random.any(&halted).or(self.live_index());
        if let Some(index) = index {
            self.call(&format!("clear {index}"));
        }
    }

    fn reconfigure(&mut self, index: usize) {
        if self.random.chance(70) {
            self.quiet();
            for buffer in Buffer::BOTH {
                self.free(index, buffer);
            }
        }
        self.call(&format!("configure {index} off"));
        let Record { kind, transfer, .. } = *self.record(index);
        if self.record(index).live() && self.random.chance(50) {
            self.configure(index, kind, transfer);
        } else if self.random.chance(70) {
            let (kind, transfer) = self.random.pick(&super::CLASSES);
            self.configure(index, kind, transfer);
        }
    }

    fn reset(&mut self) {
        let speed = self.random.pick(&["full", "high"]);
        self.call(&format!("reset {speed}"));
        self.populate();
    }

    fn fill_span(&mut self, index: usize) {
        if let Some((base, length)) = self.chosen_span(index) {
            let bytes = self.random.bytes(length.min(24) as usize);
            let line = format!("fill {base} {}", self.hex(&bytes));
            self.say(&line);
        }
    }

    fn chosen_span(&mut self, index: usize) -> Option<(u32, u32)> {
        let buffer = self.random.pick(&Buffer::BOTH);
        let armed = self.record(index).buffer(buffer)?;
        Some((armed.base, armed.length))
    }

    pub(super) fn look_around(&mut self) {
        match self.random.below(8) {
            0 => {
                let length = self.random.pick(&[1, 4, 20, 70]);
                self.say(&format!("reply {length}"));
            }
            1 => {
                let base = self.random.below(131_000);
                self.say(&format!("show {base} 32"));
            }
            2 | 3 => {
                let index = self.live_index().unwrap_or(0);
                self.show_span(index);
            }
            _ => self.say("state"),
        }
    }
}

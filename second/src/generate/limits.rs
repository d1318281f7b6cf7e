//! Both sides of each limit, with everything else right, one limit after the other.

use super::Generator;
use crate::packet::Pid;
use crate::script::{kind_word, transfer_word};
use crate::state::{Buffer, Kind, Record, Side, Speed, Transfer, MEMORY_LIMIT};

/// How many limits there are.
pub(super) const TURNS: usize = 16;

impl Generator {
    /// The next limit in turn.
    pub(super) fn limit_step(&mut self) {
        self.turn += 1;
        match self.turn % TURNS {
            0 => self.limit_maxima(),
            1 => self.limit_number(),
            2 => self.limit_length(),
            3 => self.limit_base(),
            4 => self.limit_end(),
            5 => self.limit_multiple(),
            6 => self.limit_payload(),
            7 => self.limit_frame(),
            8 => self.limit_data(),
            9 => self.limit_address(),
            10 => self.events_end(),
            11 => self.used_spans(),
            12 => self.toggles_and_halts(),
            13 => self.off_and_on(),
            14 => self.two_faults(),
            _ => self.reset_with_events(),
        }
        self.say("state");
    }

    fn limit_maxima(&mut self) {
        self.limit_maximum(Kind::Control, Transfer::Control);
        self.limit_maximum(Kind::Out, Transfer::Bulk);
        self.limit_maximum(Kind::In, Transfer::Interrupt);
    }

    fn limit_maximum(&mut self, kind: Kind, transfer: Transfer) {
        let Some(index) = self.idle_index() else {
            return;
        };
        let odd = self.random.pick(&[0, 7, 9, 15, 17, 24, 33, 63]);
        let even = self.random.pick(&[8, 16, 32, 64]);
        let edges: &[u32] = match (transfer, self.state().speed) {
            (Transfer::Interrupt, Speed::Full) => &[0, 65, 64],
            (Transfer::Interrupt, Speed::High) => &[0, 1025, 1024, 65],
            (Transfer::Bulk, Speed::High) => &[64, 513, 512],
            (Transfer::Control, Speed::High) => &[even, 65, 64],
            (_, Speed::Full) => &[odd, 65, even],
        };
        let number = self.free_number(index, kind);
        let (kind, transfer) = (kind_word(kind), transfer_word(transfer));
        for maximum in edges {
            self.say(&format!(
                "configure {index} normal {kind} {transfer} {number} {maximum}"
            ));
        }
    }

    fn limit_number(&mut self) {
        let Some(index) = self.idle_index() else {
            return;
        };
        let maximum = self.good_maximum(Transfer::Interrupt);
        for number in [16, 256, 15] {
            self.say(&format!(
                "configure {index} normal in interrupt {number} {maximum}"
            ));
        }
    }

    /// A buffer of an IN record, not armed.
    fn free_in_buffer(&mut self) -> (usize, Buffer) {
        let index = self.wanted(None, |record| record.kind == Kind::In);
        self.quiet();
        let buffer = self.random.pick(&Buffer::BOTH);
        self.free(index, buffer);
        (index, buffer)
    }

    pub(super) fn free(&mut self, index: usize, buffer: Buffer) {
        if self.record(index).buffer(buffer).is_some() {
            self.say(&format!("disarm {index} {}", buffer.index()));
        }
    }

    fn need_all_memory(&mut self) {
        if self.state().memory != MEMORY_LIMIT {
            let speed = self.state().speed;
            self.set_up_with(speed, MEMORY_LIMIT);
        }
    }

    fn arm_each(&mut self, index: usize, buffer: Buffer, spans: &[(u32, u32)]) {
        for &(base, length) in spans {
            self.free(index, buffer);
            self.say(&format!("arm {index} {} {base} {length}", buffer.index()));
        }
    }

    fn limit_length(&mut self) {
        self.need_all_memory();
        let (index, buffer) = self.free_in_buffer();
        if let Some(base) = self.free_base(index, buffer, 16_384) {
            self.arm_each(index, buffer, &[(base, 16_384), (base, 16_383)]);
        }
        self.free(index, buffer);
    }

    fn limit_base(&mut self) {
        self.need_all_memory();
        let (index, buffer) = self.free_in_buffer();
        let spans = [
            (131_071, 0),
            (131_071, 1),
            (131_070, 3),
            (131_070, 2),
            (131_070, 0),
        ];
        self.arm_each(index, buffer, &spans);
    }

    fn limit_end(&mut self) {
        let (index, buffer) = self.free_in_buffer();
        let memory = self.state().memory;
        let length = self.random.pick(&[1, 2, 8, 9]);
        let base = memory.saturating_sub(length);
        self.arm_each(index, buffer, &[(base + 1, length), (base, length)]);
    }

    fn limit_multiple(&mut self) {
        let index = self.wanted(None, |record| record.kind == Kind::Out);
        self.quiet();
        let buffer = self.random.pick(&Buffer::BOTH);
        self.free(index, buffer);
        let maximum = self.record(index).maximum;
        if let Some(base) = self.free_base(index, buffer, 2 * maximum) {
            let lengths = [0, maximum - 1, maximum + 1, 2 * maximum - 1, 2 * maximum];
            self.arm_each(index, buffer, &lengths.map(|length| (base, length)));
        }
    }

    fn limit_payload(&mut self) {
        let length = self.random.pick(&[1024, 1025, 1025]);
        let pid = self.random.pick(&[3, 7, 11, 15]);
        let payload = self.random.bytes(length);
        let line = format!("encode {pid} {}", self.hex(&payload));
        self.say(&line);
        for reply in [1026, 1027, 1028] {
            self.say(&format!("lend {} {reply}", self.state().memory));
            self.say(&format!("encode {pid} FF"));
        }
        self.say("lend default");
    }

    fn limit_frame(&mut self) {
        let number = self.random.pick(&[0, 3, 2047]);
        self.say(&format!("force frame 1 {number} 13"));
        for _ in 0..3 {
            self.say(&format!("frame {number}"));
        }
        self.say("frame 2048");
        self.say("force frame 1 0 16");
        self.say("frame 1");
        self.say("force frame 0 0 0");
        self.say("frame 0");
    }

    /// The longest good data packet, and one byte more.
    fn limit_data(&mut self) {
        let index = self.wanted(None, |record| record.serves(Side::Out));
        self.quiet();
        self.set_halted(index, false);
        self.make_ready(index, Side::Out);
        let pid = self.record(index).out_toggle.pid();
        let length = self.random.pick(&[1024, 1025, 1025]);
        let packet = self.data_packet(pid, length);
        self.token_to(Pid::Out, index);
        self.packet(&packet);
    }

    fn limit_address(&mut self) {
        for address in [127, 128, 256] {
            self.say(&format!("address {address}"));
        }
        let index = self.wanted(None, |_| true);
        self.token_to(Pid::Sof, index);
        self.token_to(Pid::In, index);
    }

    /// Configure and reads end a record's events.
    fn events_end(&mut self) {
        let index = self.wanted(None, |record| record.kind == Kind::Out);
        self.quiet();
        self.token_to(Pid::Setup, index);
        for buffer in Buffer::BOTH {
            self.free(index, buffer);
        }
        let Record { kind, transfer, .. } = *self.record(index);
        self.configure(index, kind, transfer);
        self.say("state");
        self.token_to(Pid::Setup, index);
        self.say(&format!("events {index}"));
        self.say(&format!("events {index}"));
    }

    /// A used span still counts, but not against its own buffer.
    fn used_spans(&mut self) {
        let index = self.wanted(None, |record| record.kind == Kind::In);
        self.quiet();
        self.free(index, Buffer::Zero);
        self.free(index, Buffer::One);
        if !self.arm_length(index, Buffer::Zero, 6) {
            return;
        }
        let base = self
            .record(index)
            .buffer(Buffer::Zero)
            .map_or(0, |armed| armed.base);
        self.say(&format!("configure {index} off"));
        self.say(&format!("force buffer {index} 0 {base} 6 6 1"));
        self.say(&format!("configure {index} off"));
        self.say(&format!("arm {index} 1 {} 3", base + 5));
        self.say(&format!("arm {index} 0 {} 5", base + 1));
    }

    /// Calls that two refusals fit; the smaller number comes first.
    fn two_faults(&mut self) {
        let index = self.wanted(None, |record| record.kind == Kind::Out);
        self.quiet();
        self.make_ready(index, Side::Out);
        let ready = self.record(index).chosen(Side::Out);
        let (ready, other) = (ready.index(), ready.other());
        self.free(index, other);
        let number = self.record(index).number;
        self.say(&format!("arm {index} {ready} 131071 0"));
        if let Some(armed) = self.record(index).buffers[ready] {
            let base = armed.base;
            self.say(&format!("arm {index} {} {base} 16384", other.index()));
        }
        self.say(&format!("configure {index} halted out bulk 16 8"));
        if let Some(off) = self.off_index() {
            let beyond = self.beyond_buffer();
            self.say(&format!(
                "configure {off} halted control control {number} 64"
            ));
            self.say(&format!("arm {off} {beyond} 131071 16384"));
            self.say(&format!("disarm {off} {beyond}"));
        }
        self.token_to(Pid::Out, index);
        self.say(&format!("disarm {index} {}", other.index()));
        self.say(&format!("disarm {index} 2"));
        self.say(&format!(
            "lend {} 1026",
            self.state().memory.saturating_sub(1)
        ));
        self.say("packet D2");
        self.say("timeout");
        self.say("encode 1 -");
        self.say("lend default");
    }

    fn off_and_on(&mut self) {
        let index = self.wanted(None, |_| true);
        self.quiet();
        self.free(index, Buffer::Zero);
        self.free(index, Buffer::One);
        let Record { kind, transfer, .. } = *self.record(index);
        self.say(&format!("configure {index} off"));
        self.say("state");
        self.say(&format!("events {index}"));
        self.configure(index, kind, transfer);
    }

    fn toggles_and_halts(&mut self) {
        let index = self.wanted(None, |_| true);
        self.quiet();
        for (side, name) in [(Side::Out, "out"), (Side::In, "in")] {
            if self.record(index).serves(side) {
                self.say(&format!("force record {index} {name} 1"));
            }
        }
        self.say(&format!("halt {index}"));
        self.say("state");
        self.say(&format!("clear {index}"));
    }

    fn reset_with_events(&mut self) {
        if self.state().address == 0 {
            self.say("address 9");
        }
        self.packet(&[]);
        let speed = self.random.pick(&["full", "high"]);
        self.say(&format!("reset {speed}"));
        self.say("state");
        self.populate();
    }
}

//! Firmware calls at the edges of every range, and wrong lends.

use super::Generator;
use crate::packet::Pid;
use crate::script::{kind_word, speed_word, transfer_word};
use crate::state::{Buffer, Descriptor, Kind, Record, Side, Speed, Transfer, Wait};

const MAXIMA: [u32; 28] = [
    0,
    1,
    7,
    8,
    9,
    15,
    16,
    17,
    31,
    32,
    33,
    63,
    64,
    65,
    66,
    127,
    128,
    256,
    264,
    511,
    512,
    513,
    1023,
    1024,
    1025,
    65_544,
    65_536,
    4_294_967_295,
];

impl Generator {
    /// One firmware call with arguments at the edges.
    pub(super) fn edge_call(&mut self) {
        match self.random.below(100) {
            0..=24 => self.edge_configure(),
            25..=59 => self.edge_arm(),
            60..=69 => {
                let (index, buffer) = (self.edge_index(), self.edge_buffer());
                self.call(&format!("disarm {index} {buffer}"));
            }
            70..=75 => {
                let (word, index) = (self.random.pick(&["halt", "clear"]), self.edge_index());
                self.call(&format!("{word} {index}"));
            }
            76..=80 => {
                let index = self.edge_index();
                self.call(&format!("events {index}"));
            }
            81..=86 => self.edge_address(),
            87..=89 => {
                let index = self.edge_index();
                self.call(&format!("configure {index} off"));
            }
            90 => self.edge_start(),
            91..=94 => self.one_frame(),
            _ => self.host_step(),
        }
    }

    pub(super) fn edge_index(&mut self) -> u32 {
        let live = self.live_index().unwrap_or(0) as u32;
        let off = self.off_index().unwrap_or(15) as u32;
        let beyond = self.beyond_index();
        self.random.pick(&[live, live, live, live, off, 15, beyond])
    }

    pub(super) fn beyond_index(&mut self) -> u32 {
        self.random
            .pick(&[16, 16, 17, 31, 255, 256, 65_536, 4_294_967_295])
    }

    pub(super) fn edge_buffer(&mut self) -> u32 {
        let beyond = self.beyond_buffer();
        self.random.pick(&[0, 0, 0, 1, 1, 1, beyond])
    }

    pub(super) fn beyond_buffer(&mut self) -> u32 {
        self.random.pick(&[2, 2, 3, 255, 256, 257, 4_294_967_295])
    }

    pub(super) fn edge_address(&mut self) {
        let beyond = self
            .random
            .pick(&[128, 128, 129, 255, 256, 257, 4_294_967_295u32]);
        let address = self.random.pick(&[0, 1, 127, beyond, beyond]);
        self.call(&format!("address {address}"));
    }

    pub(super) fn edge_start(&mut self) {
        let speed = self.random.pick(&["full", "high"]);
        let memory =
            self.random
                .pick(&[0, 1, 131_071, 131_072, 131_073, 131_073, 4_294_967_295u32]);
        self.call(&format!("start {speed} {memory}"));
        let index = self.random.below(16);
        self.call(&format!("configure {index} normal in interrupt 3 8"));
        for (base, length) in [
            (0, 0),
            (memory.min(131_072), 0),
            (memory.saturating_sub(1), 1),
        ] {
            let buffer = self.random.below(2);
            self.call(&format!("arm {index} {buffer} {base} {length}"));
        }
        if self.random.chance(80) {
            let speed = self.random.pick(&[Speed::Full, Speed::High]);
            self.set_up(speed);
        }
    }

    pub(super) fn edge_configure(&mut self) {
        let index = match self.random.below(4) {
            0 => self.edge_index(),
            _ => self.idle_index().unwrap_or(15) as u32,
        };
        let (kind, transfer) = self.random.pick(&super::CLASSES);
        let odd = self
            .random
            .pick(&[Transfer::Control, Transfer::Bulk, Transfer::Interrupt]);
        let transfer = self
            .random
            .pick(&[transfer, transfer, transfer, transfer, odd]);
        self.configure_edges(index, kind, transfer);
    }

    fn configure_edges(&mut self, index: u32, kind: Kind, transfer: Transfer) {
        let condition = self
            .random
            .pick(&["normal", "normal", "normal", "normal", "normal", "halted"]);
        let good = self.good_maximum(transfer);
        let edge = self.random.pick(&MAXIMA);
        let maximum = self.random.pick(&[good, good, edge, edge]);
        let number = self.edge_number(index, kind);
        let (kind, transfer) = (kind_word(kind), transfer_word(transfer));
        self.call(&format!(
            "configure {index} {condition} {kind} {transfer} {number} {maximum}"
        ));
    }

    fn edge_number(&mut self, index: u32, kind: Kind) -> u32 {
        let free = u32::from(self.free_number(index as usize, kind));
        let taken = self
            .live_index()
            .map_or(0, |index| self.record(index).number);
        let beyond = self
            .random
            .pick(&[16, 16, 17, 255, 256, 257, 4_294_967_295]);
        self.random
            .pick(&[free, free, free, 15, u32::from(taken), beyond])
    }

    /// A record that configure takes: nothing armed and not waited on.
    pub(super) fn idle_index(&mut self) -> Option<usize> {
        let waited = self.state().wait.record();
        let mut idle = self.indexes(|record| record.buffers == [None, None]);
        idle.retain(|&index| Some(index) != waited);
        self.random.any(&idle)
    }

    pub(super) fn edge_arm(&mut self) {
        let index = self.edge_index();
        let buffer = self.edge_buffer();
        let record = *self.record(index.min(15) as usize);
        let which = if buffer == 1 {
            Buffer::One
        } else {
            Buffer::Zero
        };
        if self.random.chance(40) && record.buffer(which).is_some_and(|armed| !armed.used) {
            self.call(&format!("disarm {index} {buffer}"));
        }
        let length = self.edge_length(&record, which);
        let base = self.edge_base(length);
        self.call(&format!("arm {index} {buffer} {base} {length}"));
    }

    fn edge_length(&mut self, record: &Record, buffer: Buffer) -> u32 {
        let maximum = record.maximum.clamp(1, 1024);
        let most = 16_383 / maximum * maximum;
        let edge = self
            .random
            .pick(&[0, 1, 16_383, 16_384, 16_385, 32_768, 65_536, 4_294_967_295]);
        match record.side(buffer) {
            Side::Out => self.random.pick(&[
                maximum,
                2 * maximum,
                most,
                most + maximum,
                maximum - 1,
                maximum + 1,
                edge,
            ]),
            Side::In => self
                .random
                .pick(&[0, 1, 2, 3, maximum, 16_383, 16_384, edge]),
        }
    }

    fn edge_base(&mut self, length: u32) -> u32 {
        let memory = self.state().memory;
        let fitting = memory.saturating_sub(length);
        let touching = self.touching_base(length);
        let wrapping = length.wrapping_neg();
        self.random.pick(&[
            0,
            fitting,
            fitting,
            fitting + 1,
            fitting + 1,
            memory,
            memory + 1,
            131_070,
            131_070,
            131_071,
            131_071,
            131_072,
            4_294_967_295,
            wrapping,
            touching,
            touching,
            touching,
            touching,
        ])
    }

    /// Touches an armed span, or shares one byte with it.
    pub(super) fn touching_base(&mut self, length: u32) -> u32 {
        let spans = self.other_spans(16, Buffer::Zero);
        let Descriptor {
            base,
            length: other,
            ..
        } = self.random.any(&spans).unwrap_or(Descriptor::fresh(0, 8));
        let end = base.saturating_add(other);
        let before = base.saturating_sub(length);
        self.random.pick(&[
            end,
            end,
            end.saturating_sub(1),
            before,
            before + 1,
            base,
            base + other / 2,
        ])
    }

    /// Wrong lends, with and without a wait, followed by calls.
    pub(super) fn lends(&mut self) {
        for _ in 0..4 {
            if self.random.chance(70) {
                self.begin_wait();
            }
            let before = self.state().wait;
            self.lend_step();
            if before != Wait::Nothing && self.random.chance(60) {
                self.host_step();
            }
        }
    }

    pub(super) fn begin_wait(&mut self) {
        let Some(index) = self.live_index() else {
            return self.populate();
        };
        let pid = match self.record(index).kind {
            Kind::Out => Pid::Out,
            Kind::In => Pid::In,
            Kind::Control => self.random.pick(&[Pid::Setup, Pid::Out, Pid::In]),
        };
        self.token_to(pid, index);
    }

    pub(super) fn lend_step(&mut self) {
        let memory = self.state().memory;
        let less = memory.saturating_sub(1);
        let more = (memory + 1).min(131_072);
        let lent = self
            .random
            .pick(&[memory, memory, memory, less, more, 0, 131_072]);
        let reply = self.random.pick(&[1026, 1026, 1027, 1028, 1040, 0, 1]);
        self.say(&format!("lend {lent} {reply}"));
        for _ in 0..self.random.between(1, 3) {
            match self.random.below(5) {
                0 | 1 => self.host_step(),
                2 => self.call("timeout"),
                3 => self.encode_step(),
                _ => self.call("events"),
            }
        }
        self.say("lend default");
    }

    /// A lend that gives refusal 2 or 3, and the call that is refused.
    pub(super) fn refused_lend(&mut self, number: u32, call: &str) {
        let memory = self.state().memory;
        let wrong = if memory == 131_072 {
            memory - 1
        } else {
            memory + 1
        };
        let low = self.random.pick(&[1026, 1026, 0, 1, 1025]);
        let any = self.random.pick(&[low, 1027, 1040]);
        match number {
            2 => self.say(&format!("lend {wrong} {any}")),
            _ => self.say(&format!("lend {memory} {low}")),
        }
        self.call(call);
        self.say("lend default");
    }

    pub(super) fn frames(&mut self) {
        for _ in 0..self.random.between(4, 10) {
            self.one_frame();
        }
        if self.random.chance(50) {
            let number = self.random.pick(&[0, 5, 2047]);
            for _ in 0..self.random.between(2, 18) {
                self.say(&format!("frame {number}"));
            }
        }
    }

    pub(super) fn one_frame(&mut self) {
        if self.random.chance(20) {
            self.force_frame();
        }
        let now = u32::from(self.model.frame().number);
        let beyond = self
            .random
            .pick(&[2048, 2048, 2049, 4096, 65_536, 4_294_967_295]);
        let number = self.random.pick(&[now, now, now, now + 1, 0, 2047, beyond]);
        self.say(&format!("frame {number}"));
    }

    /// Frame records that a run gives, and such as none gives.
    fn force_frame(&mut self) {
        let forms = [
            "0 0 0",
            "0 0 0",
            "0 1 0",
            "0 0 1",
            "1 0 0",
            "1 2047 15",
            "1 2047 14",
            "1 2048 0",
            "1 0 16",
            "1 5 255",
            "1 65535 3",
            "1 0 15",
            "0 2047 15",
            "1 2048 16",
        ];
        let form = self.random.pick(&forms);
        self.say(&format!("force frame {form}"));
    }

    /// A start that is judged by its memory size alone.
    pub(super) fn refused_start(&mut self) {
        let memory = self
            .random
            .pick(&[131_073, 131_073, 131_074, 262_144, 4_294_967_295u32]);
        let speed = self.random.pick(&[Speed::Full, Speed::High]);
        self.call(&format!("start {} {memory}", speed_word(speed)));
        self.say("state");
    }
}

//! Writes call scripts that go deep: the right core runs along as the model.

mod aim;
mod edges;
mod forced;
mod limits;
mod noise;
mod traffic;

use crate::packet::{self, Pid};
use crate::probe::{Call, Rule};
use crate::random::Random;
use crate::script::{kind_word, speed_word, transfer_word, write_bytes, Player};
use crate::state::{
    Buffer, Descriptor, Fault, Kind, Record, Side, Speed, State, Transfer, Wait, BASE_LIMIT,
    LENGTH_LIMIT,
};
use crate::tally::Tally;

/// A script and what it reaches.
pub struct Generated {
    pub script: Vec<u8>,
    pub tally: Tally,
}

/// The same script for the same seed and number of lines.
pub fn generate(seed: u64, lines: usize) -> Generated {
    let mut generator = Generator {
        random: Random::new(seed),
        model: Player::new(Tally::default()),
        script: Vec::new(),
        lines: 0,
        limit: lines,
        state_chance: 50,
        answer: Vec::new(),
        last: Vec::new(),
        turn: (seed % limits::TURNS as u64) as usize,
    };
    generator.run();
    let script = generator.script;
    let tally = count(&script);
    Generated { script, tally }
}

/// What a script reaches.
pub fn count(script: &[u8]) -> Tally {
    let mut player = Player::new(Tally::default());
    let mut answer = Vec::new();
    for line in script.split(|&byte| byte == b'\n') {
        player.play(line, &mut answer);
        answer.clear();
    }
    player.into_probe()
}

struct Generator {
    random: Random,
    model: Player<Tally>,
    script: Vec<u8>,
    lines: usize,
    limit: usize,
    /// How often, in percent, a call is followed by `state`.
    state_chance: u32,
    answer: Vec<u8>,
    /// The line before, for bad lines made of good ones.
    last: Vec<u8>,
    /// Which limit was tried last.
    turn: usize,
}

/// A stretch of the script with one purpose.
#[derive(Clone, Copy)]
enum Episode {
    Traffic,
    Twisted,
    Unsound,
    Edges,
    Lends,
    Frames,
    Codec,
    BadLines,
    Fuzz,
}

const ROUND: [Episode; 16] = [
    Episode::Traffic,
    Episode::Traffic,
    Episode::Traffic,
    Episode::Traffic,
    Episode::Traffic,
    Episode::Twisted,
    Episode::Twisted,
    Episode::Twisted,
    Episode::Unsound,
    Episode::Edges,
    Episode::Edges,
    Episode::Lends,
    Episode::Frames,
    Episode::Codec,
    Episode::BadLines,
    Episode::Fuzz,
];

/// The first lines reach everything several times; later the traffic has more room.
const DENSE_LINES: usize = 2500;

/// The five classes of records; every set-up has each of them.
const CLASSES: [(Kind, Transfer); 5] = [
    (Kind::Control, Transfer::Control),
    (Kind::Out, Transfer::Bulk),
    (Kind::In, Transfer::Bulk),
    (Kind::Out, Transfer::Interrupt),
    (Kind::In, Transfer::Interrupt),
];

impl Generator {
    fn run(&mut self) {
        self.say("state");
        while !self.full() {
            let mut round = ROUND;
            self.random.shuffle(&mut round);
            for episode in round {
                if self.full() {
                    return;
                }
                self.state_chance = 8;
                self.mend();
                self.catch_up();
                self.mend();
                self.limit_step();
                self.mend();
                self.codec_step();
                self.bad_line();
                self.state_chance = self.random.pick(&[4, 10, 25, 70]);
                self.episode(episode);
            }
        }
    }

    fn episode(&mut self, episode: Episode) {
        let most = match self.lines < DENSE_LINES {
            true => 28,
            false => self.random.pick(&[28, 60, 60, 300]),
        };
        let steps = self.random.between(8, most);
        match episode {
            Episode::Traffic => {
                let speed = self.random.pick(&[Speed::Full, Speed::High]);
                if self.random.chance(50) {
                    if self.random.chance(60) {
                        self.refused_start();
                    }
                    self.set_up(speed);
                }
                self.traffic(steps);
            }
            Episode::Twisted => {
                for _ in 0..4 {
                    self.twist();
                    self.traffic(steps / 4);
                }
            }
            Episode::Unsound => {
                let clauses: Vec<Fault> = forcible().collect();
                for _ in 0..2 {
                    let clause = self.random.pick(&clauses);
                    self.unsound(clause);
                }
            }
            Episode::Edges => {
                for _ in 0..steps / 3 {
                    self.edge_call();
                }
            }
            Episode::Lends => self.lends(),
            Episode::Frames => self.frames(),
            Episode::Codec => self.codec(),
            Episode::BadLines => self.bad_lines(),
            Episode::Fuzz => self.fuzz(),
        }
    }

    /// Aims at the rules and refusals that the script has seldom reached so far.
    fn catch_up(&mut self) {
        let lines = self.lines as u32;
        let dense = lines.min(DENSE_LINES as u32) + lines / 8;
        let rules = self.rarest(Rule::ALL, dense / 150 + 3, Tally::rule);
        let speed = self.state().speed;
        // A change of speed costs a new set-up, so it waits until it is overdue.
        let waits = |(rule, count): &(Rule, u32)| {
            aim::speed(*rule).is_some_and(|needed| needed != speed) && *count > dense / 300
        };
        for (rule, _) in rules.into_iter().filter(|rule| !waits(rule)).take(10) {
            self.mend();
            self.aim(rule);
        }
        let count = |tally: &Tally, (call, number)| match number {
            // Only one call gives these.
            7 | 10..=16 => tally.refusal(call, number),
            _ => 2 * tally.refusal(call, number),
        };
        let pairs = self.rarest(&pairs(), dense / 220 + 2, count);
        for ((call, number), _) in pairs.into_iter().take(6) {
            self.mend();
            self.aim_refusal(call, number);
        }
        let clauses: Vec<Fault> = forcible().collect();
        let clauses = self.rarest(&clauses, dense / 900 + 1, Tally::fault);
        for (clause, _) in clauses.into_iter().take(3) {
            self.mend();
            self.unsound(clause);
        }
    }

    /// Those with a count below the limit, the smallest count first.
    fn rarest<T: Copy>(
        &mut self,
        all: &[T],
        limit: u32,
        count: impl Fn(&Tally, T) -> u32,
    ) -> Vec<(T, u32)> {
        let tally = self.model.probe();
        let counted = all.iter().map(|&one| (one, count(tally, one)));
        let mut list: Vec<(T, u32)> = counted.filter(|&(_, count)| count < limit).collect();
        self.random.shuffle(&mut list);
        list.sort_by_key(|&(_, count)| count);
        list
    }

    /// Episodes begin with a sound state and the default lends.
    fn mend(&mut self) {
        if self.model.lent().is_some() {
            self.say("lend default");
        }
        if !self.state().is_sound() {
            let speed = self.random.pick(&[Speed::Full, Speed::High]);
            self.set_up(speed);
        }
    }

    fn full(&self) -> bool {
        self.lines >= self.limit
    }

    fn state(&self) -> &State {
        self.model.state()
    }

    fn record(&self, index: usize) -> &Record {
        &self.state().records[index]
    }

    fn say(&mut self, line: &str) {
        self.say_bytes(line.as_bytes());
    }

    /// Past the limit the model goes on, so that an episode ends as it would.
    fn say_bytes(&mut self, line: &[u8]) {
        if !self.full() {
            self.script.extend_from_slice(line);
            self.script.push(b'\n');
        }
        self.lines += 1;
        self.model.play(line, &mut self.answer);
        self.answer.clear();
        self.last = line.to_vec();
    }

    /// A line that may be followed by `state`.
    fn call(&mut self, line: &str) {
        self.say(line);
        if self.random.chance(self.state_chance) {
            self.say("state");
        }
    }

    fn packet(&mut self, bytes: &[u8]) {
        let wait = self.state().wait;
        let line = format!("packet {}", self.hex(bytes));
        self.call(&line);
        if self.random.chance(2) {
            let length = self.random.pick(&[2, 12, 12, 12, 70, 1040]);
            self.say(&format!("reply {length}"));
        }
        if let Wait::Data { record, .. } = wait {
            if self.random.chance(20) {
                self.show_span(usize::from(record));
            }
        }
    }

    fn hex(&mut self, bytes: &[u8]) -> String {
        let mut text = Vec::new();
        write_bytes(bytes, &mut text);
        if self.random.chance(4) {
            text.make_ascii_lowercase();
        }
        text.iter().map(|&digit| char::from(digit)).collect()
    }

    /// A token to the record's own address and number.
    fn token_to(&mut self, pid: Pid, index: usize) {
        let token = self.token_for(pid, index);
        self.packet(&token);
    }

    fn token_for(&self, pid: Pid, index: usize) -> [u8; 3] {
        let place = packet::place(self.state().address, self.record(index).number);
        packet::token(pid, place & 0x07FF)
    }

    fn set_up(&mut self, speed: Speed) {
        let small = self.random.between(3000, 20_000);
        let memory = self
            .random
            .pick(&[131_072, 131_072, 131_072, 131_072, 65_536, 8192, small]);
        self.set_up_with(speed, memory);
    }

    fn set_up_with(&mut self, speed: Speed, memory: u32) {
        self.say(&format!("start {} {memory}", speed_word(speed)));
        let address = self.random.pick(&[0, 1, 2, 64, 85, 126, 127]);
        self.say(&format!("address {address}"));
        self.populate();
    }

    /// Configures and arms records of all classes, and some more.
    fn populate(&mut self) {
        let mut classes = CLASSES.to_vec();
        for _ in 0..self.random.below(2) {
            classes.push(self.random.pick(&CLASSES));
        }
        let state_chance = std::mem::replace(&mut self.state_chance, 0);
        self.random.shuffle(&mut classes);
        for (kind, transfer) in classes {
            if let Some(index) = self.off_index() {
                self.configure(index, kind, transfer);
                for buffer in Buffer::BOTH {
                    if self.random.chance(45) {
                        self.arm(index, buffer);
                    }
                }
            }
        }
        self.state_chance = state_chance;
        self.say("state");
    }

    fn configure(&mut self, index: usize, kind: Kind, transfer: Transfer) {
        let number = self.free_number(index, kind);
        let maximum = self.good_maximum(transfer);
        let (kind, transfer) = (kind_word(kind), transfer_word(transfer));
        self.call(&format!(
            "configure {index} normal {kind} {transfer} {number} {maximum}"
        ));
    }

    /// Small numbers are common, so that both directions of one number are often served.
    fn free_number(&mut self, index: usize, kind: Kind) -> u8 {
        let wanted = Record {
            kind,
            ..Record::OFF
        };
        for _ in 0..40 {
            let most = self.random.pick(&[3, 6, 15]);
            let number = self.random.between(0, most) as u8;
            let taken = [Side::Out, Side::In].iter().any(|&side| {
                let other = self.state().find(side, number);
                wanted.serves(side) && other.is_some_and(|other| other != index)
            });
            if !taken {
                return number;
            }
        }
        self.random.between(0, 15) as u8
    }

    fn good_maximum(&mut self, transfer: Transfer) -> u32 {
        match (transfer, self.state().speed) {
            (Transfer::Control, Speed::High) => 64,
            (Transfer::Bulk, Speed::High) => 512,
            (Transfer::Interrupt, Speed::Full) => self.random.pick(&[1, 2, 7, 8, 8, 9, 16, 63, 64]),
            (Transfer::Interrupt, Speed::High) => {
                self.random.pick(&[1, 3, 8, 8, 20, 64, 65, 512, 1023, 1024])
            }
            _ => self.random.pick(&[8, 8, 16, 32, 64]),
        }
    }

    fn indexes(&self, fits: impl Fn(&Record) -> bool) -> Vec<usize> {
        let records = self.state().records.iter().enumerate();
        records
            .filter(|(_, record)| fits(record))
            .map(|(index, _)| index)
            .collect()
    }

    fn off_index(&mut self) -> Option<usize> {
        let off = self.indexes(|record| !record.live());
        self.random.any(&off)
    }

    fn live_index(&mut self) -> Option<usize> {
        let live = self.indexes(Record::live);
        self.random.any(&live)
    }

    /// A live record that fits, from a new set-up where there is none.
    fn wanted(&mut self, speed: Option<Speed>, fits: impl Fn(&Record) -> bool) -> usize {
        let fits = |record: &Record| record.live() && fits(record);
        for _ in 0..3 {
            let fitting = self.indexes(fits);
            let speed = speed.unwrap_or(self.state().speed);
            if speed == self.state().speed {
                if let Some(index) = self.random.any(&fitting) {
                    return index;
                }
            }
            self.set_up(speed);
        }
        0
    }

    /// Arms a buffer with values that are right; false if no place is left.
    fn arm(&mut self, index: usize, buffer: Buffer) -> bool {
        let length = self.good_length(index, buffer);
        self.arm_length(index, buffer, length)
    }

    fn arm_length(&mut self, index: usize, buffer: Buffer, length: u32) -> bool {
        let Some(base) = self.free_base(index, buffer, length) else {
            return false;
        };
        self.call(&format!("arm {index} {} {base} {length}", buffer.index()));
        let sends = length > 0 && self.record(index).side(buffer) == Side::In;
        if sends && self.random.chance(60) {
            let bytes = self.random.bytes(length.min(48) as usize);
            let line = format!("fill {base} {}", self.hex(&bytes));
            self.say(&line);
        }
        true
    }

    fn good_length(&mut self, index: usize, buffer: Buffer) -> u32 {
        let record = *self.record(index);
        let maximum = record.maximum;
        let length = match record.side(buffer) {
            Side::Out => maximum * self.random.pick(&[1, 1, 1, 2, 2, 3, 5]),
            Side::In => {
                let any = self.random.below(2 * maximum + 2);
                let tail = 2 * maximum + 3;
                self.random.pick(&[
                    0,
                    0,
                    1,
                    maximum.saturating_sub(1),
                    maximum,
                    maximum + 1,
                    tail,
                    any,
                ])
            }
        };
        length.min(LENGTH_LIMIT)
    }

    /// A base where the span is apart from all others; it often touches one.
    fn free_base(&mut self, index: usize, buffer: Buffer, length: u32) -> Option<u32> {
        let room = self.state().memory.checked_sub(length)?.min(BASE_LIMIT);
        let others = self.other_spans(index, buffer);
        for _ in 0..24 {
            let base = match (self.random.below(10), self.random.any(&others)) {
                (0..=2, Some(other)) => other.base + other.length,
                (3, Some(other)) => other.base.saturating_sub(length),
                (4..=7, Some(other)) if length == 0 => other.base + other.length / 2,
                (4, _) => room,
                _ => self.random.below(room + 1),
            };
            let span = Descriptor::fresh(base, length);
            let shared = others
                .iter()
                .any(|other| other.shares(&span, &crate::Plain));
            if base <= room && !shared {
                return Some(base);
            }
        }
        None
    }

    /// All armed spans but the buffer's own.
    fn other_spans(&self, index: usize, buffer: Buffer) -> Vec<Descriptor> {
        let mut spans = Vec::new();
        for (other, record) in self.state().records.iter().enumerate() {
            for which in Buffer::BOTH {
                if (other, which) != (index, buffer) {
                    spans.extend(record.buffer(which));
                }
            }
        }
        spans
    }

    /// Ends a wait.
    fn quiet(&mut self) {
        if self.state().wait != Wait::Nothing {
            self.call("timeout");
        }
    }
}

/// Each call with each refusal that it can give.
fn pairs() -> Vec<(Call, u32)> {
    let of = |&call: &Call| call.refusals().iter().map(move |&number| (call, number));
    Call::ALL.iter().flat_map(of).collect()
}

/// Clauses that a script can break; events not named cannot be forced.
pub fn forcible() -> impl Iterator<Item = Fault> {
    let all = Fault::ALL.iter().copied();
    all.filter(|clause| !matches!(clause, Fault::SystemEvents | Fault::RecordEvents))
}

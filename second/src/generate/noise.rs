//! Data packets written and read, and lines that are none of the forms.

use super::Generator;
use crate::packet::Pid;

const LENGTHS: [usize; 15] = [0, 0, 1, 1, 2, 2, 7, 8, 8, 9, 16, 33, 63, 64, 65];
const LONG_LENGTHS: [usize; 9] = [511, 512, 513, 1023, 1024, 1025, 1025, 1026, 2048];
const PIDS: [u32; 21] = [
    0,
    1,
    2,
    3,
    4,
    5,
    6,
    7,
    8,
    9,
    10,
    11,
    12,
    13,
    14,
    15,
    16,
    17,
    19,
    259,
    4_294_967_295,
];

/// Lines that are none of the forms, and forms that look odd but are good.
const ODD_LINES: [&str; 84] = [
    "",
    "#",
    "# a comment",
    "#state",
    " state",
    "state ",
    " ",
    "  ",
    "\t",
    "\r",
    "state\r",
    "State",
    "STATE",
    "state now",
    "stat",
    "states",
    "start",
    "start full",
    "start full 256 1",
    "start low 256",
    "start Full 256",
    "start full -1",
    "start full +1",
    "start full 0x10",
    "start full 1e3",
    "start full 4294967296",
    "start full 99999999999999999999",
    "start  full 64",
    "start full  64",
    "configure 0",
    "configure 0 on",
    "configure 0 off 1",
    "configure 0 off out bulk 1 8",
    "configure 0 normal out bulk 1",
    "configure 0 normal out iso 1 8",
    "configure 0 normal bulk out 1 8",
    "configure 0 normal out bulk 1 8 9",
    "configure 4294967296 off",
    "arm 0 0 0",
    "arm 0 0 0 8 8",
    "arm 0 0 4294967296 8",
    "arm 0 0 0 4294967296",
    "arm 0 0 0 -",
    "arm 0 0 0 8.0",
    "disarm 0",
    "disarm 0 0 0",
    "halt",
    "halt 0 0",
    "clear",
    "address",
    "address -1",
    "address 1 1",
    "events 0 0",
    "events -",
    "reset",
    "reset low",
    "reset full 1",
    "packet",
    "packet ",
    "packet  D2",
    "packet D",
    "packet D2D",
    "packet D2 D2",
    "packet GG",
    "packet 0xD2",
    "packet --",
    "packet -D2",
    "packet D2-",
    "timeout 1",
    "frame",
    "frame -",
    "frame 1 1",
    "encode 3",
    "encode - 00",
    "encode 3 0",
    "decode",
    "decode C",
    "decode C30000 ",
    "lend",
    "lend 5",
    "lend default 1",
    "lend Default",
    "lend 131073 1027",
    "lend 64 1041",
];

const ODD_FORMS: [&str; 70] = [
    "fill 131072 -",
    "fill 131073 -",
    "fill 131071 00",
    "fill 131071 0000",
    "fill 4294967295 00",
    "fill 0",
    "fill 0 0",
    "fill - 00",
    "show 0 0",
    "show 131072 0",
    "show 131073 0",
    "show 131071 1",
    "show 131071 2",
    "show 0 4096",
    "show 0 4097",
    "show 4294967295 1",
    "show 0",
    "reply 0",
    "reply 1040",
    "reply 1041",
    "reply",
    "reply -",
    "force",
    "force memory",
    "force memory 4294967296",
    "force address 256",
    "force events 1",
    "force events 524288",
    "force events 8388608",
    "force events 4294967295",
    "force speed high",
    "force wait",
    "force wait none",
    "force wait nothing 1",
    "force wait data 3",
    "force wait data 256 out",
    "force wait data 3 in",
    "force wait ack 3 0",
    "force wait ack 3 2 8",
    "force wait ack 256 0 8",
    "force wait ack 3 0 4294967296",
    "force record 16 number 1",
    "force record 0 number 256",
    "force record 0 max 4294967296",
    "force record 0 next 2",
    "force record 0 events 128",
    "force record 0 events 256",
    "force record 0 out 2",
    "force record 0 in 2",
    "force record 0 condition on",
    "force record 0 kind bulk",
    "force record 0 type in",
    "force record 0 toggle 1",
    "force record 0 number",
    "force record 0",
    "force buffer 16 0 off",
    "force buffer 0 2 off",
    "force buffer 0 0",
    "force buffer 0 0 on",
    "force buffer 0 0 1 2 3",
    "force buffer 0 0 1 2 3 2",
    "force buffer 0 0 1 2 4294967296 0",
    "force frame 2 0 0",
    "force frame 1 65536 0",
    "force frame 1 0 256",
    "force frame 1 0",
    "force frame 1 0 0 0",
    "force wait data 3 SETUP",
    "events 000000000000000000001",
    "frame 0000000000007",
];

impl Generator {
    /// Encodes and decodes, round trips, and damaged packets.
    pub(super) fn codec(&mut self) {
        for _ in 0..self.random.between(6, 14) {
            self.codec_step();
        }
        if self.random.chance(25) {
            self.long_packet();
        }
    }

    pub(super) fn codec_step(&mut self) {
        match self.random.below(6) {
            0 | 1 => self.encode_step(),
            2 => self.round_trip(),
            3 | 4 => self.decode_step(),
            _ => self.refused_encode(),
        }
    }

    fn codec_length(&mut self) -> usize {
        if self.random.chance(7) {
            self.random.pick(&LONG_LENGTHS)
        } else {
            self.random.pick(&LENGTHS)
        }
    }

    pub(super) fn encode_step(&mut self) {
        let length = self.codec_length();
        let pid = self.random.pick(&[3, 11, 7, 15, 3, 11]);
        let any = self.random.pick(&PIDS);
        let pid = self.random.pick(&[pid, pid, any]);
        self.encode(pid, length);
    }

    fn encode(&mut self, pid: u32, length: usize) {
        let payload = self.random.bytes(length);
        let line = format!("encode {pid} {}", self.hex(&payload));
        self.say(&line);
        if self.random.chance(25) {
            self.say(&format!("reply {}", (length + 8).min(1040)));
        }
    }

    pub(super) fn refused_encode(&mut self) {
        let pid = self.random.pick(&PIDS);
        let long = self.random.chance(15);
        let length = if long {
            1025
        } else {
            self.random.pick(&[0, 1, 8])
        };
        self.encode(pid, length);
    }

    /// What encode writes is read again.
    fn round_trip(&mut self) {
        let pid = self.random.pick(&[3, 11, 7, 15]);
        let length = self.codec_length().min(1024);
        let payload = self.random.bytes(length);
        let line = format!("encode {pid} {}", self.hex(&payload));
        self.say(&line);
        let mut packet = vec![0; length + 3];
        if let Some(pid) = Pid::data(pid) {
            crate::packet::write_data(pid, &payload, &mut packet);
        }
        let line = format!("decode {}", self.hex(&packet));
        self.say(&line);
    }

    fn decode_step(&mut self) {
        let mut packet = match self.random.below(4) {
            0 => self.bad_data(),
            1 => {
                let length = self.random.below(8) as usize;
                self.random.bytes(length)
            }
            _ => {
                let pid = self.random.pick(&Pid::ALL);
                let length = self.codec_length();
                self.data_packet(pid, length)
            }
        };
        if !packet.is_empty() && self.random.chance(30) {
            self.damage(&mut packet);
        }
        let line = format!("decode {}", self.hex(&packet));
        self.say(&line);
    }

    /// Packets at and past the longest that is told apart.
    fn long_packet(&mut self) {
        let length = self.random.pick(&[1025, 1028, 2045, 2046, 2500]);
        let packet = self.data_packet(Pid::Data0, length);
        if self.random.chance(70) {
            self.begin_wait();
        }
        self.packet(&packet);
    }

    pub(super) fn bad_lines(&mut self) {
        for _ in 0..self.random.between(10, 22) {
            match self.random.below(5) {
                0 => self.garbled_line(),
                1 => self.firmware_step(),
                _ => self.bad_line(),
            }
        }
        self.say("state");
    }

    pub(super) fn bad_line(&mut self) {
        let line = if self.random.chance(55) {
            self.random.pick(&ODD_LINES)
        } else {
            self.random.pick(&ODD_FORMS)
        };
        self.say(line);
    }

    /// A good line with one character changed; it may still be good.
    fn garbled_line(&mut self) {
        let mut line = self.last.clone();
        let place = self.random.below(line.len() as u32) as usize;
        match self.random.below(7) {
            0 => line.push(b' '),
            1 => line.push(b'\r'),
            2 => line.insert(0, b' '),
            3 => line.insert(place, b' '),
            4 if place < line.len() => line[place] = self.random.pick(b"\x00\xFF\x80\t09gzA-"),
            5 if place < line.len() => {
                line.remove(place);
            }
            _ => line.make_ascii_uppercase(),
        }
        self.say_bytes(&line);
        self.mend();
    }
}

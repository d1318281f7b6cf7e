//! The works that are measured, each by both sides.

use crate::{linked, plain};
use second::{packet, Core, Pid};
use std::hint::black_box;

/// M of the set-up.
pub const MEMORY_SIZE: usize = 65536;
/// How many exchanges a pass plays: they fill a bulk buffer, which is then armed again.
const EXCHANGES: u32 = 30;
const TOKENS: u32 = 2 * EXCHANGES;
/// The PID of every data packet that is written alone.
const DATA1: u32 = 11;

/// What a run is lent, and what it leaves.
#[derive(Clone, PartialEq, Eq)]
pub struct Lent {
    pub memory: Vec<u8>,
    pub reply: Vec<u8>,
}

impl Lent {
    pub fn new() -> Lent {
        Lent {
            memory: pattern(MEMORY_SIZE),
            reply: vec![0; packet::PACKET_LIMIT],
        }
    }
}

/// Does the work so many times; what it returns tells what was found.
pub type Run = Box<dyn Fn(u32, &mut Lent) -> u64>;

pub struct Work {
    pub name: String,
    /// How many of what the name says are done each time.
    pub each: u32,
    pub proved: Run,
    pub plain: Run,
}

/// Bytes that differ from their neighbours.
fn pattern(length: usize) -> Vec<u8> {
    (0..length).map(|i| (i * 31 + i / 256) as u8).collect()
}

pub fn all() -> Vec<Work> {
    let mut works = Vec::new();
    works.extend([8, 64, 512, 1024].map(check));
    works.extend([8, 64, 512, 1024].map(reader));
    works.extend([8, 64, 512, 1024].map(writer));
    works.push(token());
    works.push(sound(64));
    works.push(sound(512));
    works.push(tokens("out-other-address", Pid::Out, packet::place(2, 1)));
    works.push(tokens("out-token", Pid::Out, packet::place(1, 1)));
    works.push(timeout());
    works.extend([64, 512].map(out_exchange));
    works.extend([64, 512].map(in_exchange));
    works
}

/// The same function `times` times over, its answers added up.
fn repeat(times: u32, mut once: impl FnMut() -> u64) -> u64 {
    (0..times).fold(0, |sum, _| sum.wrapping_mul(31).wrapping_add(once()))
}

fn pair((number, length): (u8, usize)) -> u64 {
    u64::from(number) << 32 | length as u64
}

fn check(length: usize) -> Work {
    let ours = pattern(length);
    let theirs = ours.clone();
    Work {
        name: format!("crc16-{length}"),
        each: 1,
        proved: Box::new(move |times, _| repeat(times, || linked::crc16(black_box(&ours)).into())),
        plain: Box::new(move |times, _| repeat(times, || plain::crc16(black_box(&theirs)).into())),
    }
}

fn reader(length: usize) -> Work {
    let ours = data_packet(Pid::Data1, &pattern(length));
    let theirs = ours.clone();
    Work {
        name: format!("read-{length}"),
        each: 1,
        proved: Box::new(move |times, _| repeat(times, || pair(linked::read(black_box(&ours))))),
        plain: Box::new(move |times, _| repeat(times, || pair(plain::read(black_box(&theirs))))),
    }
}

fn writer(length: usize) -> Work {
    let ours = pattern(length);
    let theirs = ours.clone();
    let core = Core::new();
    Work {
        name: format!("write-{length}"),
        each: 1,
        proved: Box::new(move |times, lent| {
            let reply = &mut lent.reply;
            repeat(times, || {
                pair(linked::write(DATA1, black_box(&ours), black_box(reply)))
            })
        }),
        plain: Box::new(move |times, lent| {
            let reply = &mut lent.reply;
            repeat(times, || {
                let (payload, buffer) = (black_box(&theirs), black_box(&mut *reply));
                pair(plain::write(&core, DATA1, payload, buffer))
            })
        }),
    }
}

fn token() -> Work {
    let ours = packet::token(Pid::Out, packet::place(1, 1));
    let theirs = ours;
    Work {
        name: "token".to_string(),
        each: 1,
        proved: Box::new(move |times, _| repeat(times, || linked::token(black_box(&ours)).into())),
        plain: Box::new(move |times, _| repeat(times, || plain::token(black_box(&theirs)).into())),
    }
}

fn sound(maximum: u32) -> Work {
    Work {
        name: format!("sound-{maximum}"),
        each: 1,
        proved: Box::new(move |times, _| linked::sound(maximum, times).into()),
        plain: Box::new(move |times, _| plain::sound(maximum, times).into()),
    }
}

/// A list of packets, played on a set-up with this bulk maximum.
fn played(name: String, each: u32, maximum: u32, packets: Vec<Vec<u8>>) -> Work {
    let ours = listed(&packets);
    let theirs = ours.clone();
    Work {
        name,
        each,
        proved: Box::new(move |times, lent| linked::play(maximum, &ours, times, lent)),
        plain: Box::new(move |times, lent| plain::play(maximum, &theirs, times, lent)),
    }
}

fn tokens(name: &str, pid: Pid, place: u16) -> Work {
    let packets = vec![packet::token(pid, place).to_vec(); TOKENS as usize];
    played(name.to_string(), TOKENS, 512, packets)
}

fn timeout() -> Work {
    let ours = packet::token(Pid::Out, packet::place(1, 1));
    let theirs = ours;
    Work {
        name: "out-timeout".to_string(),
        each: 1,
        proved: Box::new(move |times, lent| linked::time_out(512, &ours, times, lent)),
        plain: Box::new(move |times, lent| plain::time_out(512, &theirs, times, lent)),
    }
}

fn out_exchange(maximum: u32) -> Work {
    let token = packet::token(Pid::Out, packet::place(1, 1));
    let exchange = |i| {
        let toggle = if i % 2 == 0 { Pid::Data0 } else { Pid::Data1 };
        let data = data_packet(toggle, &out_payload(maximum, i));
        [token.to_vec(), data]
    };
    let packets = (0..EXCHANGES).flat_map(exchange).collect();
    played(format!("out-{maximum}"), EXCHANGES, maximum, packets)
}

/// Each exchange has a payload of its own.
fn out_payload(maximum: u32, i: u32) -> Vec<u8> {
    let bytes = pattern(maximum as usize).into_iter();
    bytes.map(|byte| byte.wrapping_add(i as u8)).collect()
}

fn in_exchange(maximum: u32) -> Work {
    let token = packet::token(Pid::In, packet::place(1, 1)).to_vec();
    let exchange = [token, vec![Pid::Ack.byte()]];
    let packets = vec![exchange; EXCHANGES as usize].concat();
    played(format!("in-{maximum}"), EXCHANGES, maximum, packets)
}

fn data_packet(pid: Pid, payload: &[u8]) -> Vec<u8> {
    let mut buffer = [0; packet::PACKET_LIMIT];
    let length = packet::write_data(pid, payload, &mut buffer);
    buffer[..length].to_vec()
}

/// Each packet behind two bytes that say its length, low byte first.
fn listed(packets: &[Vec<u8>]) -> Vec<u8> {
    let entry = |packet: &Vec<u8>| {
        let length = (packet.len() as u16).to_le_bytes();
        [length.as_slice(), packet].concat()
    };
    packets.iter().flat_map(entry).collect()
}

#[cfg(test)]
mod tests {
    use super::*;

    /// What both sides leave after one pass.
    fn after_a_pass(work: Work) -> [Lent; 2] {
        [work.proved, work.plain].map(|run| {
            let mut lent = Lent::new();
            run(1, &mut lent);
            lent
        })
    }

    #[test]
    fn every_out_payload_is_stored() {
        for maximum in [64, 512] {
            for lent in after_a_pass(out_exchange(maximum)) {
                let payloads = lent.memory.chunks(maximum as usize);
                for (i, payload) in (0..EXCHANGES).zip(payloads) {
                    assert_eq!(payload, out_payload(maximum, i), "{maximum} bytes");
                }
            }
        }
    }

    #[test]
    fn the_last_in_payload_is_sent() {
        for maximum in [64, 512] {
            for lent in after_a_pass(in_exchange(maximum)) {
                let from = (16384 + (EXCHANGES - 1) * maximum) as usize;
                let payload = &lent.memory[from..from + maximum as usize];
                let packet = data_packet(Pid::Data1, payload);
                assert_eq!(lent.reply[..packet.len()], packet, "{maximum} bytes");
            }
        }
    }
}

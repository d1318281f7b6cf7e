//! The lines of the call script, and the bytes in them.

use crate::calls::Configuration;
use crate::frame::FrameRecord;
use crate::state::{
    Buffer, Condition, Descriptor, Kind, Speed, Stage, Toggle, Transfer, Wait, RECORD_EVENTS,
    SYSTEM_EVENTS,
};

/// A packet's bytes past this one are dropped.
const PACKET_BYTES: usize = 2048;

/// A line that is one of the forms.
pub enum Command {
    Start(Speed, u32),
    Configure(u32, Configuration),
    Arm {
        index: u32,
        buffer: u32,
        base: u32,
        length: u32,
    },
    Disarm(u32, u32),
    Halt(u32),
    Clear(u32),
    Address(u32),
    RecordEvents(u32),
    SystemEvents,
    Reset(Speed),
    Packet(Vec<u8>),
    Timeout,
    Frame(u32),
    Encode(u32, Vec<u8>),
    Decode(Vec<u8>),
    Lend(Option<(u32, u32)>),
    Fill(u32, Vec<u8>),
    Show(u32, u32),
    Reply(u32),
    State,
    Force(Force),
}

/// A field set with no judgement.
pub enum Force {
    Memory(u32),
    Address(u8),
    Events(u32),
    Wait(Wait),
    Record(usize, Field),
    Buffer(usize, Buffer, Option<Descriptor>),
    Frame(FrameRecord),
}

/// A record's field with its value.
pub enum Field {
    Condition(Condition),
    Kind(Kind),
    Type(Transfer),
    Number(u8),
    Maximum(u32),
    Next(Buffer),
    Events(u8),
    OutToggle(Toggle),
    InToggle(Toggle),
}

/// Reads a line; `None` is a bad line.
pub fn command(line: &[u8]) -> Option<Command> {
    let words: Vec<&[u8]> = line.split(|&byte| byte == b' ').collect();
    Some(match words[..] {
        [b"start", s, m] => Command::Start(speed(s)?, number(m)?),
        [b"configure", r, b"off"] => Command::Configure(number(r)?, Configuration::OFF),
        [b"configure", r, c, k, t, n, m] => {
            Command::Configure(number(r)?, configuration([c, k, t, n, m])?)
        }
        [b"arm", r, b, base, length] => Command::Arm {
            index: number(r)?,
            buffer: number(b)?,
            base: number(base)?,
            length: number(length)?,
        },
        [b"disarm", r, b] => Command::Disarm(number(r)?, number(b)?),
        [b"halt", r] => Command::Halt(number(r)?),
        [b"clear", r] => Command::Clear(number(r)?),
        [b"address", a] => Command::Address(number(a)?),
        [b"events"] => Command::SystemEvents,
        [b"events", r] => Command::RecordEvents(number(r)?),
        [b"reset", s] => Command::Reset(speed(s)?),
        [b"packet", p] => Command::Packet(packet(p)?),
        [b"timeout"] => Command::Timeout,
        [b"frame", n] => Command::Frame(number(n)?),
        [b"encode", pid, p] => Command::Encode(number(pid)?, bytes(p)?),
        [b"decode", p] => Command::Decode(packet(p)?),
        [b"lend", b"default"] => Command::Lend(None),
        [b"lend", m, r] => Command::Lend(Some((below(m, 131_072)?, below(r, 1_040)?))),
        [b"fill", base, p] => Command::Fill(number(base)?, bytes(p)?),
        [b"show", base, length] => Command::Show(number(base)?, below(length, 4_096)?),
        [b"reply", length] => Command::Reply(below(length, 1_040)?),
        [b"state"] => Command::State,
        [b"force", ref what @ ..] => Command::Force(force(what)?),
        _ => return None,
    })
}

fn force(words: &[&[u8]]) -> Option<Force> {
    Some(match *words {
        [b"memory", n] => Force::Memory(number(n)?),
        [b"address", n] => Force::Address(byte(n)?),
        [b"events", n] => Force::Events(number(n).filter(|n| n & !SYSTEM_EVENTS == 0)?),
        [b"wait", ref what @ ..] => Force::Wait(wait(what)?),
        [b"record", r, name, value] => Force::Record(record_index(r)?, field(name, value)?),
        [b"buffer", r, b, b"off"] => Force::Buffer(record_index(r)?, buffer(b)?, None),
        [b"buffer", r, b, base, length, done, used] => {
            let armed = Descriptor {
                base: number(base)?,
                length: number(length)?,
                done: number(done)?,
                used: flag(used)?,
            };
            Force::Buffer(record_index(r)?, buffer(b)?, Some(armed))
        }
        [b"frame", seen, n, repeats] => Force::Frame(FrameRecord {
            seen: flag(seen)?,
            number: number(n)?.try_into().ok()?,
            repeats: byte(repeats)?,
        }),
        _ => return None,
    })
}

fn wait(words: &[&[u8]]) -> Option<Wait> {
    Some(match *words {
        [b"nothing"] => Wait::Nothing,
        [b"data", r, b"setup"] => Wait::Data {
            record: byte(r)?,
            stage: Stage::Setup,
        },
        [b"data", r, b"out"] => Wait::Data {
            record: byte(r)?,
            stage: Stage::Out,
        },
        [b"ack", r, b, length] => Wait::Ack {
            record: byte(r)?,
            buffer: buffer(b)?,
            length: number(length)?,
        },
        _ => return None,
    })
}

fn field(name: &[u8], value: &[u8]) -> Option<Field> {
    Some(match name {
        b"condition" => Field::Condition(condition(value)?),
        b"kind" => Field::Kind(kind(value)?),
        b"type" => Field::Type(transfer(value)?),
        b"number" => Field::Number(byte(value)?),
        b"max" => Field::Maximum(number(value)?),
        b"next" => Field::Next(buffer(value)?),
        b"events" => Field::Events(byte(value).filter(|n| n & !RECORD_EVENTS == 0)?),
        b"out" => Field::OutToggle(toggle(value)?),
        b"in" => Field::InToggle(toggle(value)?),
        _ => return None,
    })
}

/// The long form of configure knows no `off`.
fn configuration([c, k, t, n, m]: [&[u8]; 5]) -> Option<Configuration> {
    Some(Configuration {
        condition: condition(c).filter(|&condition| condition != Condition::Off)?,
        kind: kind(k)?,
        transfer: transfer(t)?,
        number: number(n)?,
        maximum: number(m)?,
    })
}

fn speed(word: &[u8]) -> Option<Speed> {
    match word {
        b"full" => Some(Speed::Full),
        b"high" => Some(Speed::High),
        _ => None,
    }
}

fn condition(word: &[u8]) -> Option<Condition> {
    match word {
        b"off" => Some(Condition::Off),
        b"normal" => Some(Condition::Normal),
        b"halted" => Some(Condition::Halted),
        _ => None,
    }
}

fn kind(word: &[u8]) -> Option<Kind> {
    match word {
        b"control" => Some(Kind::Control),
        b"in" => Some(Kind::In),
        b"out" => Some(Kind::Out),
        _ => None,
    }
}

fn transfer(word: &[u8]) -> Option<Transfer> {
    match word {
        b"control" => Some(Transfer::Control),
        b"bulk" => Some(Transfer::Bulk),
        b"interrupt" => Some(Transfer::Interrupt),
        _ => None,
    }
}

/// Decimal, 0 to 4,294,967,295; leading zeros do no harm.
fn number(word: &[u8]) -> Option<u32> {
    if word.is_empty() {
        return None;
    }
    word.iter().try_fold(0u32, |value, &digit| {
        let digit = digit.is_ascii_digit().then(|| u32::from(digit - b'0'))?;
        value.checked_mul(10)?.checked_add(digit)
    })
}

fn below(word: &[u8], most: u32) -> Option<u32> {
    number(word).filter(|&value| value <= most)
}

fn byte(word: &[u8]) -> Option<u8> {
    number(word)?.try_into().ok()
}

fn flag(word: &[u8]) -> Option<bool> {
    below(word, 1).map(|value| value == 1)
}

fn buffer(word: &[u8]) -> Option<Buffer> {
    flag(word).map(|one| if one { Buffer::One } else { Buffer::Zero })
}

fn toggle(word: &[u8]) -> Option<Toggle> {
    flag(word).map(|one| if one { Toggle::Data1 } else { Toggle::Data0 })
}

fn record_index(word: &[u8]) -> Option<usize> {
    below(word, 15).map(|value| value as usize)
}

fn packet(word: &[u8]) -> Option<Vec<u8>> {
    let mut packet = bytes(word)?;
    packet.truncate(PACKET_BYTES);
    Some(packet)
}

/// Pairs of digits, or `-` for no bytes.
fn bytes(word: &[u8]) -> Option<Vec<u8>> {
    match word {
        b"" => None,
        b"-" => Some(Vec::new()),
        _ => hex(word),
    }
}

/// Pairs of hexadecimal digits, either case; none at all give no bytes.
pub fn hex(text: &[u8]) -> Option<Vec<u8>> {
    let pairs = text.chunks_exact(2);
    if !pairs.remainder().is_empty() {
        return None;
    }
    pairs
        .map(|pair| Some(digit(pair[0])? << 4 | digit(pair[1])?))
        .collect()
}

fn digit(character: u8) -> Option<u8> {
    match character {
        b'0'..=b'9' => Some(character - b'0'),
        b'A'..=b'F' => Some(character - b'A' + 10),
        b'a'..=b'f' => Some(character - b'a' + 10),
        _ => None,
    }
}

#[cfg(test)]
mod tests {
    use super::*;

    #[test]
    fn numbers() {
        assert_eq!(number(b"4294967295"), Some(u32::MAX));
        assert_eq!(number(b"0000000000000000000007"), Some(7));
        for bad in [
            &b"4294967296"[..],
            b"",
            b"-1",
            b"+1",
            b"1 ",
            b"0x1",
            b"99999999999999999999",
        ] {
            assert_eq!(number(bad), None);
        }
    }

    #[test]
    fn byte_words() {
        assert_eq!(bytes(b"-"), Some(vec![]));
        assert_eq!(bytes(b"aBcD"), Some(vec![0xAB, 0xCD]));
        for bad in [&b""[..], b"A", b"AG", b"--", b"AB-", b"AB\r"] {
            assert_eq!(bytes(bad), None);
        }
    }

    #[test]
    fn one_space_between_words() {
        assert!(command(b"events 3").is_some());
        for bad in [
            &b" events 3"[..],
            b"events  3",
            b"events 3 ",
            b"events 3\r",
            b"events\t3",
        ] {
            assert!(command(bad).is_none());
        }
    }
}

//! Packet identifiers, tokens, and the data packet reader and writer.

use crate::crc::{crc16, crc5};
use crate::probe::Probe;
use crate::wrong::Wrong;

/// The longest payload of a data packet.
pub const PAYLOAD_LIMIT: usize = 1024;
/// PID byte, longest payload, check.
pub const PACKET_LIMIT: usize = PAYLOAD_LIMIT + 3;

#[derive(Clone, Copy, PartialEq, Eq, Debug)]
pub enum Pid {
    Reserved = 0,
    Out = 1,
    Ack = 2,
    Data0 = 3,
    Ping = 4,
    Sof = 5,
    Nyet = 6,
    Data2 = 7,
    Split = 8,
    In = 9,
    Nak = 10,
    Data1 = 11,
    Pre = 12,
    Setup = 13,
    Stall = 14,
    Mdata = 15,
}

impl Pid {
    /// In the order of their numbers.
    pub const ALL: [Pid; 16] = [
        Pid::Reserved,
        Pid::Out,
        Pid::Ack,
        Pid::Data0,
        Pid::Ping,
        Pid::Sof,
        Pid::Nyet,
        Pid::Data2,
        Pid::Split,
        Pid::In,
        Pid::Nak,
        Pid::Data1,
        Pid::Pre,
        Pid::Setup,
        Pid::Stall,
        Pid::Mdata,
    ];

    /// The PID of a packet whose first byte passes its check.
    pub fn checked(packet: &[u8]) -> Option<Pid> {
        let &byte = packet.first()?;
        (byte >> 4 == !byte & 0x0F).then_some(Pid::ALL[usize::from(byte & 0x0F)])
    }

    /// The data PID with this number, if it is one.
    pub fn data(number: u32) -> Option<Pid> {
        let pid = *Pid::ALL.get(number as usize)?;
        pid.is_data().then_some(pid)
    }

    pub fn number(self) -> u8 {
        self as u8
    }

    /// The number with its complement above it.
    pub fn byte(self) -> u8 {
        self.number() | (!self.number() << 4)
    }

    pub fn is_data(self) -> bool {
        matches!(self, Pid::Data0 | Pid::Data1 | Pid::Data2 | Pid::Mdata)
    }
}

/// The eleven bits of a token with three bytes and the right check.
pub fn read_token<P: Probe>(probe: &P, packet: &[u8]) -> Option<u16> {
    let [_, low, high] = *packet.get(..3)? else {
        return None;
    };
    if packet.len() > 3 && !probe.is(Wrong::LongTokens) {
        return None;
    }
    let word = u16::from_le_bytes([low, high]);
    let eleven = word & 0x07FF;
    (u16::from(crc5(eleven)) == word >> 11).then_some(eleven)
}

/// A token (or SOF) with its check.
pub fn token(pid: Pid, eleven: u16) -> [u8; 3] {
    let word = eleven | u16::from(crc5(eleven)) << 11;
    let [low, high] = word.to_le_bytes();
    [pid.byte(), low, high]
}

/// The eleven bits of a token to this address and endpoint number.
pub fn place(address: u8, number: u8) -> u16 {
    u16::from(address) | u16::from(number) << 7
}

/// A good data packet; the payload is the stretch of the received bytes itself.
#[derive(Clone, Copy, PartialEq, Eq, Debug)]
pub struct Data<'a> {
    pub pid: Pid,
    pub payload: &'a [u8],
}

/// Reads a data packet; `None` is "not good".
pub fn read_data<'a, P: Probe>(probe: &P, packet: &'a [u8]) -> Option<Data<'a>> {
    let pid = Pid::checked(packet).filter(|pid| pid.is_data())?;
    if packet.len() < 3 || packet.len() > PACKET_LIMIT + probe.slip(Wrong::Data1028) as usize {
        return None;
    }
    let (body, check) = packet.split_at(packet.len() - 2);
    let payload = &body[1..];
    let difference = crc16(payload) ^ u16::from_le_bytes([check[0], check[1]]);
    let good = difference == 0
        || probe.is(Wrong::CheckLowByteOnly) && difference & 0x00FF == 0
        || probe.is(Wrong::CheckNotInverted) && difference == 0xFFFF
        || probe.is(Wrong::EmptyPayloadUnchecked) && payload.is_empty();
    good.then_some(Data { pid, payload })
}

/// Writes a data packet from the first byte of the buffer and returns its length.
pub fn write_data(pid: Pid, payload: &[u8], buffer: &mut [u8]) -> usize {
    let end = 1 + payload.len();
    buffer[0] = pid.byte();
    buffer[1..end].copy_from_slice(payload);
    buffer[end..end + 2].copy_from_slice(&crc16(payload).to_le_bytes());
    end + 2
}

#[cfg(test)]
mod tests {
    use super::*;
    use crate::Plain;

    #[test]
    fn pid_examples() {
        assert_eq!(Pid::checked(&[0xE1]), Some(Pid::Out));
        assert_eq!(Pid::checked(&[0xF0]), Some(Pid::Reserved));
        assert_eq!(Pid::checked(&[0xE0]), None);
        for pid in Pid::ALL {
            assert_eq!(Pid::checked(&[pid.byte()]), Some(pid));
        }
    }

    #[test]
    fn token_example() {
        assert_eq!(token(Pid::Out, place(1, 1)), [0xE1, 0x81, 0x58]);
        assert_eq!(read_token(&Plain, &[0xE1, 0x81, 0x58]), Some(129));
        assert_eq!(read_token(&Plain, &[0xE1, 0x81]), None);
        assert_eq!(read_token(&Plain, &[0xE1, 0x81, 0x58, 0]), None);
        assert_eq!(read_token(&Plain, &[0xE1, 0x81, 0x50]), None);
    }

    #[test]
    fn written_packets_read_back() {
        let payload: Vec<u8> = (0..1025u32).map(|i| (i * 31) as u8).collect();
        let mut buffer = [0; PACKET_LIMIT];
        for length in [0, 1, 2, 7, 8, 9, 63, 64, 65, 511, 512, 1023, 1024] {
            let payload = &payload[..length];
            let end = write_data(Pid::Data1, payload, &mut buffer);
            let pid = Pid::Data1;
            assert_eq!(
                read_data(&Plain, &buffer[..end]),
                Some(Data { pid, payload })
            );
            buffer[end - 1] ^= 1;
            assert_eq!(read_data(&Plain, &buffer[..end]), None);
        }
    }
}

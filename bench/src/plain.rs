//! The same work in plain Rust, by the core of `second`: what `crates/exported` does, call for call.

use crate::works::{Lent, MEMORY_SIZE};
use second::{
    crc, packet, Answer, Condition, Configuration, Core, Kind, Plain, Refusal, Speed, Transfer,
};
use std::hint::black_box;

const OUT: u32 = 1;
const IN: u32 = 2;

/// The check of a payload, by slicing by eight.
#[inline(never)]
pub fn crc16(payload: &[u8]) -> u16 {
    crc::crc16(payload)
}

/// The verdict's number and the payload's length.
#[inline(never)]
pub fn read(bytes: &[u8]) -> (u8, usize) {
    packet::read_data(&Plain, bytes).map_or((0, 0), |data| (data.pid.number(), data.payload.len()))
}

/// The refusal's number and the packet's length.
#[inline(never)]
pub fn write(core: &Core, pid: u32, payload: &[u8], buffer: &mut [u8]) -> (u8, usize) {
    match core.encode(pid, payload, buffer) {
        Ok(length) => (0, length),
        Err(refusal) => (refusal.number() as u8, 0),
    }
}

/// The eleven bits, or 2,048.
#[inline(never)]
pub fn token(bytes: &[u8]) -> u32 {
    packet::read_token(&Plain, bytes).map_or(2048, u32::from)
}

/// How often the sound test says yes.
pub fn sound(maximum: u32, times: u32) -> u32 {
    let mut core = set_up(maximum);
    let mut sound = 0;
    for i in 0..times {
        core.state_mut().address = (i % 128) as u8;
        sound += u32::from(black_box(core.state()).is_sound());
    }
    sound
}

/// A sum of what the packets of the list are answered; the bulk buffers are armed again after each pass.
pub fn play(maximum: u32, list: &[u8], times: u32, lent: &mut Lent) -> u64 {
    let mut core = set_up(maximum);
    let mut sum = 0;
    for _ in 0..times {
        let mut rest = list;
        while let Some((length, behind)) = rest.split_first_chunk() {
            let length = usize::from(u16::from_le_bytes(*length));
            let (packet, next) = behind.split_at(length.min(behind.len()));
            let answer = core.packet(&mut lent.memory, packet, &mut lent.reply);
            sum = summed(sum, number_of(answer, &lent.reply));
            rest = next;
        }
        // A buffer that is not used yet is refused, and stays as it is.
        let _ = arm_out(&mut core, maximum);
        let _ = arm_in(&mut core, maximum);
    }
    sum
}

/// A sum of what the packet and the timeouts are answered.
pub fn time_out(maximum: u32, packet: &[u8], times: u32, lent: &mut Lent) -> u64 {
    let mut core = set_up(maximum);
    let mut sum = 0;
    for _ in 0..times {
        let answer = core.packet(&mut lent.memory, packet, &mut lent.reply);
        sum = summed(sum, number_of(answer, &lent.reply));
        let answer = core.timeout(&lent.memory, &lent.reply);
        let answer = answer.map(|()| Answer::Silent);
        sum = summed(sum, number_of(answer, &lent.reply));
    }
    sum
}

fn number_of(answer: Result<Answer, Refusal>, reply: &[u8]) -> u32 {
    match answer {
        Ok(Answer::Silent) => 1,
        Ok(Answer::Reply(length)) => {
            let first = reply.first().copied().unwrap_or(0);
            0x100_0000 + (length % 65536) as u32 * 256 + u32::from(first)
        }
        Ok(Answer::Sof(frame)) => 0x200_0000 + u32::from(frame),
        Err(refusal) => 0x300_0000 + refusal.number(),
    }
}

fn summed(sum: u64, number: u32) -> u64 {
    sum % 0x1_0000_0000 * 31 + u64::from(number)
}

fn set_up(maximum: u32) -> Core {
    let mut core = Core::new();
    try_set_up(&mut core, maximum).expect("the set-up is not refused");
    core
}

fn try_set_up(core: &mut Core, maximum: u32) -> Result<(), Refusal> {
    let speed = match maximum {
        512 => Speed::High,
        _ => Speed::Full,
    };
    core.start(speed, MEMORY_SIZE as u32)?;
    core.set_address(1)?;
    live(core, 0, Kind::Control, Transfer::Control, 0, 64)?;
    live(core, OUT, Kind::Out, Transfer::Bulk, 1, maximum)?;
    live(core, IN, Kind::In, Transfer::Bulk, 1, maximum)?;
    live(core, 3, Kind::In, Transfer::Interrupt, 2, 64)?;
    core.arm(0, 0, 32768, 64)?;
    core.arm(0, 1, 32832, 64)?;
    core.arm(3, 0, 40960, 64)?;
    core.arm(3, 1, 41024, 64)?;
    arm_out(core, maximum)?;
    arm_in(core, maximum)
}

fn live(
    core: &mut Core,
    index: u32,
    kind: Kind,
    transfer: Transfer,
    number: u32,
    maximum: u32,
) -> Result<(), Refusal> {
    let values = Configuration {
        condition: Condition::Normal,
        kind,
        transfer,
        number,
        maximum,
    };
    core.configure(index, &values)
}

fn arm_out(core: &mut Core, maximum: u32) -> Result<(), Refusal> {
    core.arm(OUT, 0, 0, 30 * maximum)
}

fn arm_in(core: &mut Core, maximum: u32) -> Result<(), Refusal> {
    core.arm(IN, 0, 16384, 30 * maximum)
}

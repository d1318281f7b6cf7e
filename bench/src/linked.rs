//! The proved functions of `crates/exported`, each behind a safe one: the only unsafe code.

use crate::works::Lent;

extern "C" {
    fn hnitbrek_crc16(payload: *const u8, length: usize) -> u16;
    fn hnitbrek_read(packet: *const u8, length: usize, verdict: &mut u8) -> usize;
    fn hnitbrek_write(
        pid: u32,
        payload: *const u8,
        length: usize,
        buffer: *mut u8,
        room: usize,
        refused: &mut u8,
    ) -> usize;
    fn hnitbrek_token(packet: *const u8, length: usize) -> u32;
    fn hnitbrek_sound(maximum: u32, times: u32) -> u32;
    fn hnitbrek_play(
        maximum: u32,
        list: *const u8,
        length: usize,
        times: u32,
        memory: *mut u8,
        memory_size: usize,
        reply: *mut u8,
        room: usize,
    ) -> u64;
    fn hnitbrek_time_out(
        maximum: u32,
        packet: *const u8,
        length: usize,
        times: u32,
        memory: *mut u8,
        memory_size: usize,
        reply: *mut u8,
        room: usize,
    ) -> u64;
}

/// The check of a payload.
pub fn crc16(payload: &[u8]) -> u16 {
    unsafe { hnitbrek_crc16(payload.as_ptr(), payload.len()) }
}

/// The verdict's number and the payload's length.
pub fn read(packet: &[u8]) -> (u8, usize) {
    let mut verdict = 0;
    // The slice lives through the call, and none of the functions asks more than that.
    let length = unsafe { hnitbrek_read(packet.as_ptr(), packet.len(), &mut verdict) };
    (verdict, length)
}

/// The refusal's number and the packet's length.
pub fn write(pid: u32, payload: &[u8], buffer: &mut [u8]) -> (u8, usize) {
    let mut refused = 0;
    let length = unsafe {
        hnitbrek_write(
            pid,
            payload.as_ptr(),
            payload.len(),
            buffer.as_mut_ptr(),
            buffer.len(),
            &mut refused,
        )
    };
    (refused, length)
}

/// The eleven bits, or 2,048.
pub fn token(packet: &[u8]) -> u32 {
    unsafe { hnitbrek_token(packet.as_ptr(), packet.len()) }
}

/// How often the sound test says yes.
pub fn sound(maximum: u32, times: u32) -> u32 {
    unsafe { hnitbrek_sound(maximum, times) }
}

/// A sum of what the packets of the list are answered.
pub fn play(maximum: u32, list: &[u8], times: u32, lent: &mut Lent) -> u64 {
    unsafe {
        hnitbrek_play(
            maximum,
            list.as_ptr(),
            list.len(),
            times,
            lent.memory.as_mut_ptr(),
            lent.memory.len(),
            lent.reply.as_mut_ptr(),
            lent.reply.len(),
        )
    }
}

/// A sum of what the packet and the timeouts are answered.
pub fn time_out(maximum: u32, packet: &[u8], times: u32, lent: &mut Lent) -> u64 {
    unsafe {
        hnitbrek_time_out(
            maximum,
            packet.as_ptr(),
            packet.len(),
            times,
            lent.memory.as_mut_ptr(),
            lent.memory.len(),
            lent.reply.as_mut_ptr(),
            lent.reply.len(),
        )
    }
}

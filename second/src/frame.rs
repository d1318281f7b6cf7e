//! The frame record: how often a frame number came again.

use crate::calls::{refuse, Core, Refusal};
use crate::probe::Probe;
use crate::wrong::Wrong;

/// Lent by the firmware and updated where it stands; the default has seen no SOF.
#[derive(Clone, Copy, PartialEq, Eq, Debug, Default)]
pub struct FrameRecord {
    pub seen: bool,
    pub number: u16,
    pub repeats: u8,
}

impl<P: Probe> Core<P> {
    /// Takes the number of an SOF and returns the repeat count.
    pub fn frame(&self, record: &mut FrameRecord, number: u32) -> Result<u8, Refusal> {
        let number_limit = 2047 + self.slip(Wrong::Frame2048);
        let repeat_limit = 15 + self.slip(Wrong::Repeats16) as u8;
        let given = if record.seen {
            u32::from(record.number) <= number_limit && record.repeats <= repeat_limit
        } else {
            *record == FrameRecord::default()
        };
        refuse(Refusal::Frame, number > number_limit || !given)?;
        let seen = record.seen || self.is(Wrong::FirstFrameRepeats);
        let again = seen && u32::from(record.number) == number;
        *record = FrameRecord {
            seen: true,
            number: number as u16,
            repeats: if again {
                (record.repeats + 1).min(repeat_limit)
            } else {
                0
            },
        };
        Ok(record.repeats)
    }
}

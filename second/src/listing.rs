//! The night desk's listing: one packet a line in a fixed set-up.

use crate::bus::Answer;
use crate::calls::{Configuration, Core, Refusal};
use crate::packet::PACKET_LIMIT;
use crate::parse;
use crate::script::write_bytes;
use crate::state::{Condition, Kind, Speed, Transfer};

const MEMORY: usize = 256;

/// The core in the fixed set-up.
pub struct Listing {
    core: Core,
    memory: [u8; MEMORY],
    reply: [u8; PACKET_LIMIT],
}

impl Listing {
    pub fn new() -> Result<Listing, Refusal> {
        let mut core = Core::new();
        core.start(Speed::Full, MEMORY as u32)?;
        core.set_address(1)?;
        core.configure(0, &bulk(Kind::Out))?;
        core.arm(0, 0, 16, 8)?;
        core.configure(1, &bulk(Kind::In))?;
        core.arm(1, 0, 32, 1)?;
        Ok(Listing {
            core,
            memory: [0; MEMORY],
            reply: [0; PACKET_LIMIT],
        })
    }

    /// Prints the reply of a line's packet or `-`; a bad line makes no call.
    pub fn answer(&mut self, line: &[u8], out: &mut Vec<u8>) {
        match parse::hex(line) {
            None => out.extend_from_slice(b"bad line"),
            Some(packet) => {
                let answer = self.core.packet(&mut self.memory, &packet, &mut self.reply);
                let length = match answer {
                    Ok(Answer::Reply(length)) => length,
                    _ => 0,
                };
                write_bytes(&self.reply[..length], out);
            }
        }
        out.push(b'\n');
    }

    /// The last line: the done counts of the two buffers.
    pub fn last_line(&self) -> String {
        let done = |index: usize| {
            let buffer = self.core.state().records[index].buffers[0];
            buffer.map_or(0, |armed| armed.done)
        };
        format!("out {} in {}\n", done(0), done(1))
    }
}

fn bulk(kind: Kind) -> Configuration {
    Configuration {
        condition: Condition::Normal,
        kind,
        transfer: Transfer::Bulk,
        number: 1,
        maximum: 8,
    }
}

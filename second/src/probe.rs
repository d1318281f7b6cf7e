//! What looks into the core from outside; the plain core pays nothing for it.

use crate::named::named;
use crate::state::Fault;
use crate::wrong::Wrong;

/// Asked and told at the places of the core; every default is the right core unwatched.
pub trait Probe {
    /// Whether the core is wrong in this way.
    #[inline(always)]
    fn is(&self, _wrong: Wrong) -> bool {
        false
    }

    /// Whether the sound test misses this clause.
    #[inline(always)]
    fn overlooks(&self, _clause: Fault) -> bool {
        false
    }

    /// Whether a payload is stored; asked once for each.
    #[inline(always)]
    fn stores(&mut self) -> bool {
        true
    }

    /// A packet rule was reached.
    #[inline(always)]
    fn reach(&mut self, _rule: Rule) {}

    /// The state was found not sound by this clause.
    #[inline(always)]
    fn unsound(&mut self, _clause: Fault) {}

    /// A call of the script was answered.
    #[inline(always)]
    fn answered(&mut self, _call: Call, _refusal: u32) {}

    /// One more where the core is wrong in this way: for limits that are off by one.
    #[inline(always)]
    fn slip(&self, wrong: Wrong) -> u32 {
        u32::from(self.is(wrong))
    }
}

/// The right core, unwatched.
#[derive(Clone, Copy, Default, Debug)]
pub struct Plain;

impl Probe for Plain {}

named! {
    /// A rule of "A packet arrives" that a packet or timeout call came by.
    Rule {
        DataWaitEnded = "data wait ended by another packet: event 0",
        AckWaitEnded = "ack wait ended by another packet: event 0",
        LongAck = "D2 with more bytes in an ack wait",
        SofInWait = "SOF in a wait",
        EmptyInWait = "empty packet in a wait: event 0 and 21",
        TimeoutInDataWait = "timeout in a data wait",
        TimeoutInAckWait = "timeout in an ack wait",
        TimeoutWithoutWait = "timeout without a wait",
        Empty = "empty: 21",
        WrongPidCheck = "wrong PID check: 21",
        PingFullSpeed = "PING at full speed",
        DataWithoutWait = "data with no wait",
        HandshakeWithoutWait = "handshake with no wait",
        PreSplitReserved = "PRE/SPLIT/reserved",
        TokenLength = "token not of 3 bytes: 20",
        TokenCheck = "wrong CRC5: 20",
        Sof = "SOF",
        OtherAddress = "other address",
        NoRecord = "no live record: 22",
        OutWaits = "OUT waits",
        SetupWaits = "SETUP waits",
        SetupNotControl = "SETUP not control: event 2",
        PingInterrupt = "PING interrupt: event 2",
        PingHalted = "PING halted: STALL",
        PingAck = "PING: ACK",
        PingNak = "PING: NAK",
        InHalted = "IN halted: STALL",
        InNak = "IN: NAK",
        InSends = "IN sends",
        InSendsEmpty = "IN sends an empty packet",
        InMovesMark = "IN moves the mark",
        UsedNotSkipped = "a used marked buffer is not skipped",
        NotGood = "data not good: event 1",
        NotGoodHalted = "data not good on a halted record: event 1",
        DataTwo = "DATA2/MDATA: event 2",
        SetupStored = "SETUP stored",
        SetupUnhalts = "SETUP stored on a halted record",
        SetupWrongPid = "SETUP with DATA1: event 5",
        SetupWrongLength = "SETUP not of 8 bytes: event 5",
        SetupNoBuffer = "SETUP with no active buffer: event 5",
        OutHalted = "OUT halted: STALL",
        OutRepeat = "repeat: ACK, nothing stored",
        OutRepeatFull = "repeat with no active buffer: ACK",
        OutNoBuffer = "no active buffer: NAK",
        OutAboveMaximum = "above maximum: NAK",
        StoredShort = "stored short: event 6",
        StoredEmpty = "stored empty: event 6",
        StoredUsed = "stored, used",
        StoredLeft = "stored, not used",
        Nyet = "NYET",
        InterruptAck = "interrupt at high speed with no buffer left: ACK",
        AckTakenLeft = "ACK taken, left",
        AckTakenUsed = "ACK taken, used",
        AckTakenHalted = "ACK taken on a halted record",
    }
}

named! {
    /// A call of the script that answers a refusal number.
    Call {
        Start = "start",
        Configure = "configure",
        ConfigureOff = "configure off",
        Arm = "arm",
        Disarm = "disarm",
        Halt = "halt",
        Clear = "clear",
        Address = "address",
        RecordEvents = "events R",
        SystemEvents = "events",
        Reset = "reset",
        Packet = "packet",
        Timeout = "timeout",
        Frame = "frame",
        Encode = "encode",
    }
}

impl Call {
    /// The refusals that the call can give, in the order in which it tests them.
    pub fn refusals(self) -> &'static [u32] {
        match self {
            Call::Start => &[15],
            Call::Configure => &[1, 4, 5, 6, 7],
            Call::ConfigureOff => &[1, 4, 5],
            Call::Arm => &[1, 4, 8, 9, 10, 12, 13],
            Call::Disarm => &[1, 4, 5, 8, 9, 11],
            Call::Halt | Call::Clear => &[1, 4, 5, 8],
            Call::Address => &[1, 14],
            Call::RecordEvents => &[1, 4],
            Call::SystemEvents | Call::Reset => &[1],
            Call::Packet | Call::Timeout => &[1, 2, 3],
            Call::Frame => &[16],
            Call::Encode => &[3, 6],
        }
    }
}

//! Wrong cores: each is the right one but for a small deviation at one place.

use crate::named::named;
use crate::probe::Probe;
use crate::state::Fault;

named! {
    /// One deviation.
    Wrong {
        // Errors that look reasonable.
        NakRepeatWhenFull = "nak-repeat-when-full",
        AnyFreeBuffer = "any-free-buffer",
        ToggleOnSend = "toggle-on-send",
        FreshBufferOnRetry = "fresh-buffer-on-retry",
        StallSetup = "stall-setup",
        NakSetup = "nak-setup",
        EmptyInIsUsed = "empty-in-is-used",
        // Frauds.
        AlwaysSilent = "always-silent",
        RefusesEveryCall = "refuses-every-call",
        AckToAll = "ack-to-all",
        StoresFirstOnly = "stores-first-only",
        InventedDone = "invented-done",
        // Refusals out of order.
        Order4Before1 = "order-4-before-1",
        Order14Before1 = "order-14-before-1",
        Order2Before1 = "order-2-before-1",
        Order3Before2 = "order-3-before-2",
        Order6Before3 = "order-6-before-3",
        Order6Before5 = "order-6-before-5",
        Order7Before6 = "order-7-before-6",
        Order9Before8 = "order-9-before-8",
        Order11Before5 = "order-11-before-5",
        Order12Before10 = "order-12-before-10",
        Order13Before12 = "order-13-before-12",
        // Edges off by one.
        Length16384 = "length-16384",
        Base131071 = "base-131071",
        EndBelowM = "end-below-m",
        Memory131073 = "memory-131073",
        Address128 = "address-128",
        Index16 = "index-16",
        Number16 = "number-16",
        FullInterrupt65 = "full-interrupt-65",
        HighBulk64 = "high-bulk-64",
        Frame2048 = "frame-2048",
        Repeats16 = "repeats-16",
        FirstFrameRepeats = "first-frame-repeats",
        Payload1025 = "payload-1025",
        Reply1026 = "reply-1026",
        Data1028 = "data-1028",
        // Spans.
        EmptySpansOverlap = "empty-spans-overlap",
        EmptyOutSpan = "empty-out-span",
        UsedSpanFree = "used-span-free",
        OwnSpanCounted = "own-span-counted",
        // Firmware calls.
        ClearKeepsToggles = "clear-keeps-toggles",
        HaltClearsToggles = "halt-clears-toggles",
        ResetClearsAddress = "reset-clears-address",
        ResetClearsEvents = "reset-clears-events",
        ConfigureKeepsEvents = "configure-keeps-events",
        OffIsJudged = "off-is-judged",
        UsedIsNotArmed = "used-is-not-armed",
        DisarmInWait = "disarm-in-wait",
        EventsStay = "events-stay",
        // The sound test misses one clause.
        OverlooksAddress = "overlooks-address",
        OverlooksOffRecord = "overlooks-off-record",
        OverlooksServedTwice = "overlooks-served-twice",
        OverlooksUnusedToggle = "overlooks-unused-toggle",
        OverlooksShared = "overlooks-shared",
        OverlooksOutUsed = "overlooks-out-used",
        OverlooksInUsed = "overlooks-in-used",
        OverlooksInUnused = "overlooks-in-unused",
        OverlooksAckBuffer = "overlooks-ack-buffer",
        // Packets.
        LongTokens = "long-tokens",
        CheckLowByteOnly = "check-low-byte-only",
        CheckNotInverted = "check-not-inverted",
        EmptyPayloadUnchecked = "empty-payload-unchecked",
        RefusedPacketEndsWait = "refused-packet-ends-wait",
        TimeoutAlwaysSets = "timeout-always-sets",
        SofWithoutEvent = "sof-without-event",
        LongAckTaken = "long-ack-taken",
        FullSpeedPing = "full-speed-ping",
        AddressZeroServed = "address-zero-served",
        SetupEvent6 = "setup-event-6",
        SetupNyet = "setup-nyet",
        SetupStaysHalted = "setup-stays-halted",
        SetupKeepsInToggle = "setup-keeps-in-toggle",
        HaltedBeforeNotGood = "halted-before-not-good",
        HaltedBeforeInterrupt = "halted-before-interrupt",
        MaximumBeforeRepeat = "maximum-before-repeat",
        NyetInterrupt = "nyet-interrupt",
        NyetFullSpeed = "nyet-full-speed",
        StoresPastPayload = "stores-past-payload",
        SendsFromBase = "sends-from-base",
        MarkStays = "mark-stays",
        ControlMarkStays = "control-mark-stays",
        ReplyTailCleared = "reply-tail-cleared",
    }
}

/// A core that is wrong in one way.
pub struct Deviation {
    wrong: Wrong,
    stored: bool,
}

impl Deviation {
    pub fn new(wrong: Wrong) -> Deviation {
        Deviation {
            wrong,
            stored: false,
        }
    }
}

impl Probe for Deviation {
    fn is(&self, wrong: Wrong) -> bool {
        self.wrong == wrong
    }

    fn overlooks(&self, clause: Fault) -> bool {
        match self.wrong {
            Wrong::OverlooksAddress => clause == Fault::Address,
            Wrong::OverlooksOffRecord => clause == Fault::OffRecord,
            Wrong::OverlooksServedTwice => clause == Fault::ServedTwice,
            Wrong::OverlooksUnusedToggle => clause == Fault::UnusedToggle,
            Wrong::OverlooksShared => clause == Fault::Shared,
            Wrong::OverlooksOutUsed => clause == Fault::OutUsedEarly,
            Wrong::OverlooksInUsed => clause == Fault::InUsedEarly,
            Wrong::OverlooksInUnused => clause == Fault::InUnusedLate,
            // The wrong core that chooses afresh leaves the mark behind.
            Wrong::OverlooksAckBuffer | Wrong::FreshBufferOnRetry => clause == Fault::AckBuffer,
            _ => false,
        }
    }

    fn stores(&mut self) -> bool {
        let first = !std::mem::replace(&mut self.stored, true);
        first || self.wrong != Wrong::StoresFirstOnly
    }
}

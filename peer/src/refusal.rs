//! The numbered refusals of a call.

/// Why a call was refused, by the numbers of the documents.
#[derive(Clone, Copy, Debug, PartialEq, Eq)]
pub enum Refusal {
    NoFrame = 1,
    Opcode,
    FrameLength,
    Address,
    ShortOutput,
    Busy,
    Calendar,
    NotInitialised,
    SetUp,
    NotAwaited,
    WordCount,
    Span,
    OffTheTable,
    BadTable,
    SupplyOff,
    FlashAddress,
    NotErased,
    Width,
    CaptureNumber = 20,
}

impl Refusal {
    pub fn word(self) -> &'static str {
        match self {
            Refusal::NoFrame => "no frame",
            Refusal::Opcode => "opcode",
            Refusal::FrameLength => "frame length",
            Refusal::Address => "address",
            Refusal::ShortOutput => "short output",
            Refusal::Busy => "busy",
            Refusal::Calendar => "calendar",
            Refusal::NotInitialised => "not initialised",
            Refusal::SetUp => "set-up",
            Refusal::NotAwaited => "not awaited",
            Refusal::WordCount => "word count",
            Refusal::Span => "span",
            Refusal::OffTheTable => "off the table",
            Refusal::BadTable => "bad table",
            Refusal::SupplyOff => "supply off",
            Refusal::FlashAddress => "flash address",
            Refusal::NotErased => "not erased",
            Refusal::Width => "width",
            Refusal::CaptureNumber => "capture number",
        }
    }
}

//! Why a call gives nothing.
use crate::Ending;
use std::fmt;

/// Why a call gives nothing.
#[derive(Clone, Debug, PartialEq, Eq)]
pub enum Error {
    /// The bytes aren't accepted. Of `encode` and `chunk`: store the file as it is. Of the others: the container is of another
    /// version (31), or the range isn't one of the file (54).
    Refused(Refusal),
    /// The container is damaged or foreign: raise an alarm. `before` is what was decoded before the fault, never a whole answer.
    Damaged { refusal: Refusal, before: Vec<u8> },
    /// The answer has more bytes than may be.
    TooLong,
    /// The segments aren't 1 to 64, or a size is 0.
    BadCall,
    /// Out of memory; nothing was done.
    NoMemory,
    /// The processor isn't an x86-64-v2; nothing was done.
    OldProcessor,
}

/// A refusal, as the program's line has it.
#[derive(Clone, Copy, Debug, PartialEq, Eq)]
pub struct Refusal {
    /// 1 to 54.
    pub number: u8,
    /// Of number 33 the number of the header's refusal, to which the detail belongs; else 0.
    pub inner: u8,
    /// The place, the marker's code or the segment, as the name says; else 0.
    pub detail: u64,
}

impl Refusal {
    /// The refusal's name, as `TableBad`.
    pub fn name(&self) -> &'static str {
        name_and_word(self.number).0
    }

    /// The place in the bytes, the marker's code or the segment, if the refusal has one.
    pub fn place(&self) -> Option<u64> {
        (!self.word().is_empty()).then_some(self.detail)
    }

    fn word(&self) -> &'static str {
        name_and_word(if self.inner == 0 { self.number } else { self.inner }).1
    }
}

impl fmt::Display for Refusal {
    /// The program's line, without its name.
    fn fmt(&self, to: &mut fmt::Formatter<'_>) -> fmt::Result {
        write!(to, "refused {} {}", self.number, self.name())?;
        if self.inner != 0 {
            write!(to, " {} {}", self.inner, name_and_word(self.inner).0)?;
        }
        match self.place() {
            Some(place) => write!(to, " {} {place}", self.word()),
            None => Ok(()),
        }
    }
}

impl Error {
    /// What an ending other than 0 and 4 means.
    pub(crate) fn of(ending: &Ending, is_damaged: bool, before: Vec<u8>) -> Error {
        let refusal = Refusal { number: ending.number, inner: ending.inner, detail: ending.detail };
        match ending.status {
            1 if is_damaged => Error::Damaged { refusal, before },
            1 => Error::Refused(refusal),
            5 => Error::NoMemory,
            6 => Error::OldProcessor,
            _ => Error::BadCall,
        }
    }
}

impl fmt::Display for Error {
    fn fmt(&self, to: &mut fmt::Formatter<'_>) -> fmt::Result {
        match self {
            Error::Refused(refusal) => refusal.fmt(to),
            Error::Damaged { refusal, .. } => write!(to, "damaged: {refusal}"),
            Error::TooLong => to.write_str("the answer has too many bytes"),
            Error::BadCall => to.write_str("wrong arguments"),
            Error::NoMemory => to.write_str("out of memory"),
            Error::OldProcessor => to.write_str("the processor isn't an x86-64-v2"),
        }
    }
}

impl std::error::Error for Error {}

/// A refusal's name, and the word before its place, code or segment if it has one.
fn name_and_word(number: u8) -> (&'static str, &'static str) {
    match number {
        1 => ("NotJpeg", ""),
        2 => ("HeaderCut", ""),
        3 => ("MarkerBad", "at"),
        4 => ("NotBaseline", "code"),
        5 => ("LengthBad", "at"),
        6 => ("FrameTwice", ""),
        7 => ("PrecisionBad", ""),
        8 => ("SizeZero", ""),
        9 => ("ComponentsBad", ""),
        10 => ("TableBad", "at"),
        11 => ("NoFrame", ""),
        12 => ("MultiScan", ""),
        13 => ("ScanParams", ""),
        14 => ("NoTable", ""),
        15 => ("TooManyBlocks", ""),
        16 => ("ScanCut", "at"),
        17 => ("CodeBad", "at"),
        18 => ("SymbolBad", "at"),
        19 => ("RunPast", "at"),
        20 => ("LooseZeros", "at"),
        21 => ("DcRange", "at"),
        22 => ("MarkerInScan", "at"),
        23 => ("RestartBad", "at"),
        24 => ("MixedPad", "at"),
        30 => ("BoxMagic", ""),
        31 => ("BoxVersion", ""),
        32 => ("BoxCut", ""),
        33 => ("BoxHeader", ""),
        34 => ("BoxSegments", ""),
        35 => ("BoxPad", ""),
        36 => ("HandoverBad", "segment"),
        37 => ("BoxLong", ""),
        38 => ("HeaderLong", "at"),
        39 => ("BoxChunk", ""),
        40 => ("BlockCount", "segment"),
        41 => ("DcRange", "segment"),
        42 => ("DiffRange", "segment"),
        43 => ("NoCode", "segment"),
        44 => ("Seam", "segment"),
        45 => ("StreamBad", "segment"),
        46 => ("PadSpelling", ""),
        47 => ("ChunkShort", ""),
        48 => ("PlaceBad", "segment"),
        50 => ("TooLong", ""),
        51 => ("NoChunk", ""),
        52 => ("ManyScans", ""),
        53 => ("BoxPlaces", ""),
        54 => ("RangeBad", ""),
        _ => ("", ""),
    }
}

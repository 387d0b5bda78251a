//! JPEG files in fewer bytes, without loss, by calls of liblepton (docs/EMBEDDING.md).
//!
//! ```no_run
//! # fn main() -> Result<(), Box<dyn std::error::Error>> {
//! let photograph = std::fs::read("photo.jpg")?;
//! let container = lepton::encode(&photograph, 1)?;
//! assert_eq!(lepton::decode(&container, lepton::MOST_OF_A_FILE)?, photograph);
//! # Ok(())
//! # }
//! ```
//!
//! Each call works on the calling thread and keeps nothing; any number may run at once.

mod error;

pub use error::{Error, Refusal};

use std::ops::Range;

/// The most bytes of a file that is encoded: 64 MiB.
pub const MOST_OF_A_FILE: usize = 67_108_864;

/// The most segments of a container.
pub const MOST_SEGMENTS: u8 = 64;

/// `struct lepton_ending` of include/lepton.h.
#[repr(C)]
#[derive(Default)]
pub(crate) struct Ending {
    pub(crate) status: u8,
    pub(crate) number: u8,
    pub(crate) inner: u8,
    pub(crate) detail: u64,
    pub(crate) length: u64,
    pub(crate) wanted: u64,
}

extern "C" {
    fn lepton_encode(segments: u8, bytes: *const u8, length: usize, out: *mut u8, room: usize, ending: *mut Ending) -> u8;
    fn lepton_decode(bytes: *const u8, length: usize, out: *mut u8, room: usize, ending: *mut Ending) -> u8;
    fn lepton_migrate(bytes: *const u8, length: usize, out: *mut u8, room: usize, ending: *mut Ending) -> u8;
    fn lepton_chunk(
        index: u64, size: u64, segments: u8, bytes: *const u8, length: usize, out: *mut u8, room: usize, ending: *mut Ending,
    ) -> u8;
    fn lepton_index(bytes: *const u8, length: usize, out: *mut u8, room: usize, ending: *mut Ending) -> u8;
    fn lepton_range(
        from: u64, to: u64, bytes: *const u8, length: usize, out: *mut u8, room: usize, ending: *mut Ending,
    ) -> u8;
    fn lepton_length(bytes: *const u8, length: usize, ending: *mut Ending) -> u8;
}

/// Which refusals of a call mean that a container is damaged or foreign.
#[derive(Clone, Copy)]
enum Reads {
    File,
    Container,
    ContainerOfAVersion,
}

/// The container of a JPEG file, of at most `segments` segments (1 to 64). It may be longer than a small file.
///
/// `Refused` if the file isn't accepted: store it as it is.
pub fn encode(file: &[u8], segments: u8) -> Result<Vec<u8>, Error> {
    call(Reads::File, file.len() + 4096, 8 * file.len() + (1 << 20), |out, room, ending| unsafe {
        lepton_encode(segments, file.as_ptr(), file.len(), out, room, ending)
    })
}

/// The file of a container, or the chunk that it has; `TooLong` if that has more than `most` bytes.
///
/// No file that is encoded has more than `MOST_OF_A_FILE`, but a crafted container of 148 bytes decodes to 134 MB.
pub fn decode(container: &[u8], most: usize) -> Result<Vec<u8>, Error> {
    call(Reads::Container, (2 * container.len() + 65536).min(most), most, |out, room, ending| unsafe {
        lepton_decode(container.as_ptr(), container.len(), out, room, ending)
    })
}

/// The same container, of version 1 or 2, in version 2. `Refused` with 31 of another version.
pub fn migrate(container: &[u8]) -> Result<Vec<u8>, Error> {
    call(Reads::ContainerOfAVersion, container.len() + 64, 2 * container.len() + 4096, |out, room, ending| unsafe {
        lepton_migrate(container.as_ptr(), container.len(), out, room, ending)
    })
}

/// The container of the file's bytes from `index` times `size` on, `size` of them or up to its end.
///
/// `Refused` if the file isn't accepted, with 51 if it ends before that place, with 52 if it has several scans.
pub fn chunk(file: &[u8], index: u64, size: u64, segments: u8) -> Result<Vec<u8>, Error> {
    let room = file.len().min(usize::try_from(size).unwrap_or(usize::MAX)) + 131_072;
    call(Reads::File, room, 8 * file.len() + (1 << 20), |out, room, ending| unsafe {
        lepton_chunk(index, size, segments, file.as_ptr(), file.len(), out, room, ending)
    })
}

/// The same container, of version 1, 2 or 5, in version 5, which `read_range` reads. `Refused` with 31 of another version.
pub fn index(container: &[u8]) -> Result<Vec<u8>, Error> {
    call(Reads::ContainerOfAVersion, container.len() + 1024, 2 * container.len() + 4096, |out, room, ending| unsafe {
        lepton_index(container.as_ptr(), container.len(), out, room, ending)
    })
}

/// The file's bytes in a range of places, of a container of version 5. `Refused` with 54 if the file has no such range, with 31 of
/// another version; `TooLong` if the range has more than `MOST_OF_A_FILE` bytes.
pub fn read_range(container: &[u8], range: Range<u64>) -> Result<Vec<u8>, Error> {
    let asked = usize::try_from(range.end.saturating_sub(range.start)).unwrap_or(usize::MAX);
    let room = asked.min(MOST_OF_A_FILE);
    call(Reads::ContainerOfAVersion, room, room, |out, room, ending| unsafe {
        lepton_range(range.start, range.end, container.as_ptr(), container.len(), out, room, ending)
    })
}

/// How many bytes `decode` gives of this container. It takes as long as `decode`, but no room.
pub fn length(container: &[u8]) -> Result<u64, Error> {
    let mut ending = Ending::default();
    // SAFETY: a slice's pointer isn't null and its bytes are there; the ending is apart from them.
    match unsafe { lepton_length(container.as_ptr(), container.len(), &mut ending) } {
        0 => Ok(ending.wanted),
        _ => Err(Error::of(&ending, true, Vec::new())),
    }
}

/// What a call writes into `room` bytes, or into more, up to `most`, if that is too little.
fn call(
    reads: Reads, mut room: usize, most: usize, answer: impl Fn(*mut u8, usize, *mut Ending) -> u8,
) -> Result<Vec<u8>, Error> {
    loop {
        let mut out: Vec<u8> = Vec::new();
        out.try_reserve_exact(room).map_err(|_| Error::NoMemory)?;
        let mut ending = Ending::default();
        // The callers pass a slice's pointer and length. `out` has room for `room` bytes, and overlaps nothing.
        let status = answer(out.as_mut_ptr(), room, &mut ending);
        // SAFETY: the call wrote the first `length` bytes, at most `room`.
        unsafe { out.set_len(ending.length as usize) };
        match status {
            0 => return Ok(out),
            4 => {
                // The room that is needed, if the call knows it.
                let wanted = match usize::try_from(ending.wanted).unwrap_or(usize::MAX) {
                    0 => (4 * room + 1).min(most),
                    wanted => wanted,
                };
                if wanted > most || wanted <= room {
                    return Err(Error::TooLong);
                }
                room = wanted;
            }
            _ => {
                let is_damaged = match reads {
                    Reads::File => false,
                    Reads::Container => true,
                    Reads::ContainerOfAVersion => !matches!(ending.number, 31 | 54),
                };
                return Err(Error::of(&ending, is_damaged, out));
            }
        }
    }
}

//! The proved functions for safe Rust, one each: slices in, an answer or a refusal out. include/pinnaclemug.h says how the archive packs them.

unsafe extern "C" {
    fn pm_read(words: *const u32, length: usize) -> u64;
    fn pm_count(words: *const u32, length: usize, c: u32, p: u32) -> u64;
    fn pm_cycles(words: *const u32, length: usize, c: u32) -> u64;
    fn pm_yields(words: *const u32, length: usize, c: u32, list: *const u32, count: usize) -> u64;
    fn pm_stack(
        words: *const u32,
        length: usize,
        c: u32,
        callees: *const u32,
        count: usize,
        out: *mut i64,
    ) -> u64;
    fn pm_order(words: *const u32, length: usize, tray: *mut u32, room: usize) -> u64;
    fn pm_sheet(words: *const u32, length: usize, tray: *mut u32, room: usize) -> u64;
    fn pm_write(
        chunks: *const u32,
        chunk_numbers: usize,
        constants: *const u32,
        constant_numbers: usize,
        ops: *const u32,
        op_numbers: usize,
        extras: *const u32,
        extra_numbers: usize,
        tray: *mut u32,
        room: usize,
    ) -> u64;
}

/// The values of a chunk in a sheet's tray: cycles, their mark, peak, bytes and whole.
pub const ROW: usize = 5;

/// The values that a stack walk leaves: peak, delta and bytes.
pub const HEIGHT: usize = 3;

/// The numbers of a chunk in the first of the lists that the writer is lent, and of a constant and of an op in theirs.
pub const LENT_CHUNK: usize = 5;
pub const LENT_CONSTANT: usize = 3;
pub const LENT_OP: usize = 3;

/// How many bits of a refusal its place has, and its chunk above it.
const PLACE_BITS: u32 = 32;
const CHUNK_BITS: u32 = 24;

/// A refusal as the archive packs it: the chunk modulo 2^24, the place modulo 2^32.
#[derive(Clone, Copy, Debug, PartialEq)]
pub struct Refusal {
    pub number: u32,
    pub chunk: u32,
    pub place: u32,
}

/// The bits of a cycle walk's answer above its cycles: that the row ends, and that the cycles are cut.
const ENDS: u64 = 1 << 32;
const CUT: u64 = 1 << 33;

/// The cycles of a walk, whether its row ends, and whether the cycles are cut.
#[derive(Clone, Copy, Debug, PartialEq)]
pub struct Cycles {
    pub cycles: u32,
    pub ends: bool,
    pub cut: bool,
}

/// A module's parts as the writer is lent them. Chunk after chunk takes its own from the fronts of the last three lists.
#[derive(Clone, Copy, Debug)]
pub struct Lent<'a> {
    /// locals, type, and how many constants, ops and extras are the chunk's own
    pub chunks: &'a [u32],
    /// 0 and the low and the high 32 bits of an integer; or 1, 0, 0
    pub constants: &'a [u32],
    /// kind, a and b
    pub ops: &'a [u32],
    pub extras: &'a [u32],
}

/// An answer has none of the bits of a refusal's number.
fn unpacked(packed: u64) -> Result<u64, Refusal> {
    let above = packed >> PLACE_BITS;
    match above >> CHUNK_BITS {
        0 => Ok(packed),
        number => Err(Refusal {
            number: number as u32,
            chunk: above as u32 & ((1 << CHUNK_BITS) - 1),
            place: packed as u32,
        }),
    }
}

/// The reader: how many chunks there are.
pub fn read(words: &[u32]) -> Result<usize, Refusal> {
    // The words are lent for the call, and only read.
    let packed = unsafe { pm_read(words.as_ptr(), words.len()) };
    unpacked(packed).map(|chunks| chunks as usize)
}

/// The count of the loop at position p of chunk c.
pub fn count(words: &[u32], c: u32, p: u32) -> Result<u32, Refusal> {
    // The words are lent for the call, and only read.
    let packed = unsafe { pm_count(words.as_ptr(), words.len(), c, p) };
    unpacked(packed).map(|passes| passes as u32)
}

/// The cycle walk of chunk c.
pub fn cycles(words: &[u32], c: u32) -> Result<Cycles, Refusal> {
    // The words are lent for the call, and only read.
    let packed = unsafe { pm_cycles(words.as_ptr(), words.len(), c) };
    unpacked(packed).map(|answer| Cycles {
        cycles: answer as u32,
        ends: answer & ENDS != 0,
        cut: answer & CUT != 0,
    })
}

/// Whether every way through chunk c gives up its turn, over a list: 0 for no, 1 for yes, 2 for never.
pub fn yields(words: &[u32], c: u32, list: &[u32]) -> Result<u32, Refusal> {
    // The words and the list are lent for the call, and only read.
    let packed = unsafe { pm_yields(words.as_ptr(), words.len(), c, list.as_ptr(), list.len()) };
    unpacked(packed).map(|coverage| coverage as u32)
}

/// The stack walk of chunk c over the callees' bytes: peak, delta (0 where the row ends) and bytes into `out`, and whether the row ends.
pub fn stack(
    words: &[u32],
    c: u32,
    callees: &[u32],
    out: &mut [i64; HEIGHT],
) -> Result<bool, Refusal> {
    // The words and the callees are lent for the call, and only read; the array has the room that the walk writes.
    let packed = unsafe {
        pm_stack(
            words.as_ptr(),
            words.len(),
            c,
            callees.as_ptr(),
            callees.len(),
            out.as_mut_ptr(),
        )
    };
    unpacked(packed).map(|ends| ends != 0)
}

/// The call order into the tray: how many chunks stand there.
pub fn order(words: &[u32], tray: &mut [u32]) -> Result<usize, Refusal> {
    // The words are lent for the call, and only read; the tray is handed over with its length.
    let packed = unsafe { pm_order(words.as_ptr(), words.len(), tray.as_mut_ptr(), tray.len()) };
    unpacked(packed).map(|chunks| chunks as usize)
}

/// The module sheet into the tray: how many chunks have their values there.
pub fn sheet(words: &[u32], tray: &mut [u32]) -> Result<usize, Refusal> {
    // The words are lent for the call, and only read; the tray is handed over with its length.
    let packed = unsafe { pm_sheet(words.as_ptr(), words.len(), tray.as_mut_ptr(), tray.len()) };
    unpacked(packed).map(|chunks| chunks as usize)
}

/// The words of the lent parts into the tray: how many there are.
pub fn write(lent: &Lent, tray: &mut [u32]) -> Result<usize, Refusal> {
    // The four lists are lent for the call, and only read; the tray is handed over with its length.
    let packed = unsafe {
        pm_write(
            lent.chunks.as_ptr(),
            lent.chunks.len(),
            lent.constants.as_ptr(),
            lent.constants.len(),
            lent.ops.as_ptr(),
            lent.ops.len(),
            lent.extras.as_ptr(),
            lent.extras.len(),
            tray.as_mut_ptr(),
            tray.len(),
        )
    };
    unpacked(packed).map(|words| words as usize)
}

//! Frame records of both forms, and the moves of files of them a second time, written from documents 01
//! and 02 alone.

use crate::calls::{OLD_RECORD, RECORD};
use crate::moves::Due;
use crate::random::Random;

// The moves, a second time

/// What a record of either form says.
struct Frame<'a> {
    node: u8,
    data: &'a [u8],
}

impl Frame<'_> {
    /// Length, node number, so many data bytes, zeros to the end; none if the record is broken.
    fn read(record: &[u8]) -> Option<Frame<'_>> {
        let (&length, rest) = record.split_first()?;
        let (&node, rest) = rest.split_first()?;
        let (data, zeros) = rest.split_at_checked(usize::from(length))?;
        let good = zeros.iter().all(|&byte| byte == 0);
        good.then_some(Frame { node, data })
    }

    /// A record of this size, if the data have room in it.
    fn record(&self, size: usize) -> Option<Vec<u8>> {
        let zeros = size.checked_sub(2 + self.data.len())?;
        let start = [self.data.len() as u8, self.node];
        Some([&start, self.data, &vec![0; zeros]].concat())
    }
}

/// The records of a file in the other size, or the number. All of the file is judged before the next
/// number.
pub fn due(file: &[u8], size: usize, other: usize) -> Due {
    if !file.len().is_multiple_of(size) {
        return Err(15);
    }
    let frames: Option<Vec<Frame>> = file.chunks(size).map(Frame::read).collect();
    let frames = frames.ok_or(8)?;
    let records: Option<Vec<_>> = frames.iter().map(|frame| frame.record(other)).collect();
    Ok(records.ok_or(16)?.concat())
}

// Records

/// A good record of this size.
pub fn record(size: usize, node: u8, data: &[u8]) -> Vec<u8> {
    let mut record = vec![0; size];
    record[0] = data.len() as u8;
    record[1] = node;
    record[2..2 + data.len()].copy_from_slice(data);
    record
}

/// The same with any data of this length.
pub fn any_good(random: &mut Random, size: usize, length: usize) -> Vec<u8> {
    let mut data = vec![0; length];
    random.fill(&mut data);
    record(size, random.byte(), &data)
}

pub fn changed(mut record: Vec<u8>, place: usize, byte: u8) -> Vec<u8> {
    record[place] = byte;
    record
}

/// Records of the old form, the first three good.
pub fn old_kinds() -> Vec<Vec<u8>> {
    let of = |data: &[u8]| record(OLD_RECORD, 5, data);
    vec![
        of(&[]),
        of(&[7, 8, 9]),
        of(&[0xff; 62]),
        changed(of(&[]), 0, 63),
        vec![0xff; OLD_RECORD],
        changed(of(&[]), 2, 1),
        changed(of(&[0xff; 61]), 63, 1),
    ]
}

/// Records of the new form, the first three good; the next two can not go back. Of the broken ones
/// three have a length that can not go back as well, and two are broken only past the bytes that go.
pub fn new_kinds() -> Vec<Vec<u8>> {
    let of = |data: &[u8]| record(RECORD, 5, data);
    vec![
        of(&[]),
        of(&[7, 8, 9]),
        of(&[0xff; 62]),
        of(&[0; 63]),
        of(&[0xff; 126]),
        changed(of(&[]), 0, 127),
        changed(of(&[]), 2, 1),
        changed(of(&[0xff; 62]), 64, 1),
        changed(of(&[7, 8, 9]), 127, 0x80),
        changed(of(&[0; 63]), 65, 1),
        changed(of(&[0xff; 125]), 127, 1),
    ]
}

//! What the calls are lent: descriptions and channels.

use crate::answer::refuse_if;
use crate::LARGEST_N;

/// Bytes of a description before its mask, or before its start.
const HEADER: usize = 8;

/// The kinds of descriptions; the second has a start, two bytes, before its mask.
const WITHOUT_START: u16 = 1;
const WITH_START: u16 = 4;

/// What a description says.
pub struct Code<'a> {
    pub size: usize,
    pub r: u32,
    pub polynomial: u32,
    pub start: u32,
    pub k: usize,
    pub mask: &'a [u8],
}

impl<'a> Code<'a> {
    pub fn read(d: &'a [u8]) -> Result<Self, u64> {
        refuse_if(d.len() < HEADER, 1)?;
        let kind = word(d, 2);
        let has_start = kind == WITH_START;
        let header = if has_start { HEADER + 2 } else { HEADER };
        refuse_if(d.len() < header, 1)?;
        refuse_if(usize::from(word(d, 0)) != d.len(), 2)?;
        refuse_if(kind != WITHOUT_START && !has_start, 3)?;
        let n = d[4];
        refuse_if(!(3..=LARGEST_N).contains(&n), 4)?;
        let size = 1 << n;
        refuse_if(d.len() != header + size / 8, 5)?;
        let r = u32::from(d[5]);
        refuse_if(!(1..=16).contains(&r), 6)?;
        let polynomial = u32::from(word(d, 6));
        refuse_if(polynomial & 1 == 0 || polynomial >> r != 0, 7)?;
        let start = if has_start { word(d, HEADER) } else { 0 };
        let start = u32::from(start);
        refuse_if(start >> r != 0, 25)?;
        let mask = &d[header..];
        let ones: u32 = mask.iter().map(|byte| byte.count_ones()).sum();
        refuse_if(ones < r + 1, 8)?;
        Ok(Code {
            size,
            r,
            polynomial,
            start,
            k: (ones - r) as usize,
            mask,
        })
    }

    /// K, the number of information indices.
    pub fn information(&self) -> usize {
        self.k + self.r as usize
    }

    /// The mask's bits, one per byte.
    pub fn mask_bits(&self) -> impl Iterator<Item = u8> + '_ {
        self.mask
            .iter()
            .flat_map(|byte| (0..8).map(move |b| byte >> b & 1))
    }

    /// The first information index above i, or N.
    pub fn next_information(&self, i: usize) -> usize {
        (i + 1..self.size)
            .find(|&index| mask_bit(self.mask, index) == 1)
            .unwrap_or(self.size)
    }
}

/// Two bytes from `place` on, little-endian.
fn word(bytes: &[u8], place: usize) -> u16 {
    u16::from_le_bytes([bytes[place], bytes[place + 1]])
}

fn mask_bit(mask: &[u8], index: usize) -> u8 {
    mask[index / 8] >> (index % 8) & 1
}

/// A channel byte in two's complement.
pub fn value(byte: u8) -> i32 {
    i32::from(byte as i8)
}

/// Whether all values lie in −31..31. It looks at each of them, so that several are compared at once.
pub fn are_within(values: &[u8]) -> bool {
    let outside = |byte: &u8| byte.wrapping_add(31) > 62;
    !values.iter().fold(false, |any, byte| any | outside(byte))
}

/// Refusals 12 and 13; most channels have no value outside.
pub fn check_channel(code: &Code, channel: &[u8]) -> Result<(), u64> {
    refuse_if(channel.len() != code.size, 12)?;
    if are_within(channel) {
        return Ok(());
    }
    match channel.iter().position(|byte| value(*byte).abs() > 31) {
        Some(index) => Err(13 + ((index as u64) << 8)),
        None => Ok(()),
    }
}

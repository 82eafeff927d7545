//! Files and lists damaged in every way.

use crate::dice::Dice;

/// The file ended early, at each byte.
pub fn truncated(file: &[u8]) -> impl Iterator<Item = Vec<u8>> + '_ {
    (0..file.len()).map(|end| file[..end].to_vec())
}

/// Each bit turned, fill bits included.
pub fn flipped(file: &[u8]) -> impl Iterator<Item = Vec<u8>> + '_ {
    (0..file.len() * 8).map(|bit| flip(file, bit))
}

pub fn flip(file: &[u8], bit: usize) -> Vec<u8> {
    let mut out = file.to_vec();
    out[bit / 8] ^= 0x80 >> (bit % 8);
    out
}

/// Bytes after the end: zeros, ones, several.
pub fn extended(file: &[u8]) -> Vec<Vec<u8>> {
    let tails: [&[u8]; 6] = [&[0], &[1], &[0x80], &[0, 0], &[0xFF, 0, 0], &[0; 9]];
    tails.iter().map(|tail| [file, tail].concat()).collect()
}

/// Some damage to any file: a flip, a cut, a tail, or two of them.
pub fn any(dice: &mut Dice, file: &[u8]) -> Vec<u8> {
    let mut out = file.to_vec();
    for _ in 0..dice.between(1, 2) {
        match dice.below(4) {
            0 => out.truncate(dice.below(out.len() + 1)),
            1 => out.extend((0..dice.between(1, 3)).map(|_| dice.pick(&[0, 0, 1, 255]))),
            _ if out.is_empty() => {}
            _ => out = flip(&out, dice.below(out.len() * 8)),
        }
    }
    out
}

/// Values to put into a field of this width that held `value`, each of which fits the width.
pub fn values_that_fit(width: usize, value: u32) -> Vec<u32> {
    let top = if width == 32 { u32::MAX } else { (1 << width) - 1 };
    let mut out: Vec<u32> = [0, 1, 2, 7, 8, 9, 15, 63, 64, 65, 127, 512, 513, 2_879, 2_880, 4_095, top]
        .into_iter()
        .chain([value.wrapping_sub(1), value + 1])
        .filter(|&v| v <= top && v != value)
        .collect();
    out.sort_unstable();
    out.dedup();
    out
}

/// Values to put into a list where a field of this width held `value`, fitting or not.
pub fn values_at_all(width: usize, value: u32) -> Vec<u32> {
    let mut out = values_that_fit(width, value);
    out.extend([255, 256, 257, 65_535, 65_536, 1 << 31, u32::MAX, u32::MAX - 1]);
    out.extend([value.wrapping_add(1 << width), value.wrapping_add(1 << 31), value.wrapping_add(1 << 16)]);
    out.retain(|&v| v != value);
    out
}

//! Networks: the quantities, the file, and the list of numbers that stands for the file.

use crate::bits::{pack, BitReader};

pub const LAST_MINUTE: u32 = 2_879;
pub const MOST_PLACES: u32 = 64;
pub const MOST_LEGS: u32 = 512;
pub const MOST_BANDS: u32 = 8;
pub const MOST_TOLL: u32 = 65_535;

#[derive(Clone, Copy, Debug, PartialEq)]
pub struct Band {
    pub start: u32,
    pub toll: u32,
}

#[derive(Clone, Debug, PartialEq)]
pub struct Leg {
    pub from: usize,
    pub to: usize,
    pub time: u32,
    pub bands: Vec<Band>,
}

#[derive(Clone, Debug, PartialEq)]
pub struct Network {
    pub places: usize,
    pub legs: Vec<Leg>,
}

impl Leg {
    /// The toll of the last band whose start is not later than the minute.
    pub fn toll_at(&self, minute: u32) -> u32 {
        self.bands.iter().filter(|band| band.start <= minute).next_back().unwrap().toll
    }
}

/// Where fields come from: the bytes of a file, or a list of numbers.
trait Source {
    fn field(&mut self, width: usize) -> Option<u32>;
    fn ends_here(&self) -> bool;
}

impl Source for BitReader<'_> {
    fn field(&mut self, width: usize) -> Option<u32> {
        self.take(width)
    }
    fn ends_here(&self) -> bool {
        self.tail_is_clean()
    }
}

struct Numbers<'a> {
    left: &'a [u32],
}

impl Source for Numbers<'_> {
    fn field(&mut self, _width: usize) -> Option<u32> {
        let (first, rest) = self.left.split_first()?;
        self.left = rest;
        Some(*first)
    }
    fn ends_here(&self) -> bool {
        self.left.is_empty()
    }
}

/// Takes one field: 1 if it is not complete, `fault` if its value is out of range.
fn take(
    source: &mut dyn Source,
    taken: &mut Vec<(usize, u32)>,
    width: usize,
    low: u32,
    high: u32,
    fault: u32,
) -> Result<u32, u32> {
    let value = source.field(width).ok_or(1u32)?;
    if value < low || value > high {
        return Err(fault);
    }
    taken.push((width, value));
    Ok(value)
}

/// Every field in file order with its width, or the number of the first fault.
fn fields(source: &mut dyn Source) -> Result<Vec<(usize, u32)>, u32> {
    let mut taken = Vec::new();
    take(source, &mut taken, 8, 1, 1, 2)?;
    let places = take(source, &mut taken, 7, 1, MOST_PLACES, 3)?;
    let legs = take(source, &mut taken, 10, 0, MOST_LEGS, 3)?;
    for _ in 0..legs {
        take(source, &mut taken, 6, 0, places - 1, 3)?;
        take(source, &mut taken, 6, 0, places - 1, 3)?;
        take(source, &mut taken, 12, 0, LAST_MINUTE, 3)?;
        let bands = take(source, &mut taken, 4, 1, MOST_BANDS, 3)?;
        let mut before = None;
        for _ in 0..bands {
            let start = take(source, &mut taken, 12, 0, LAST_MINUTE, 3)?;
            let in_order = match before {
                None => start == 0,
                Some(earlier) => start > earlier,
            };
            if !in_order {
                return Err(4);
            }
            before = Some(start);
            take(source, &mut taken, 16, 0, MOST_TOLL, 3)?;
        }
    }
    if !source.ends_here() {
        return Err(5);
    }
    Ok(taken)
}

/// The fields of a network file.
pub fn fields_of_file(bytes: &[u8]) -> Result<Vec<(usize, u32)>, u32> {
    fields(&mut BitReader::new(bytes))
}

/// The fields of a list of numbers that stands for a network file.
pub fn fields_of_list(list: &[u32]) -> Result<Vec<(usize, u32)>, u32> {
    fields(&mut Numbers { left: list })
}

/// The network that sound fields stand for.
fn from_fields(fields: &[(usize, u32)]) -> Network {
    let mut values = fields.iter().map(|&(_, value)| value).skip(1);
    let mut next = || values.next().unwrap();
    let places = next() as usize;
    let count = next();
    let mut legs = Vec::new();
    for _ in 0..count {
        let (from, to, time, bands) = (next() as usize, next() as usize, next(), next());
        let mut held = Vec::new();
        for _ in 0..bands {
            held.push(Band { start: next(), toll: next() });
        }
        legs.push(Leg { from, to, time, bands: held });
    }
    Network { places, legs }
}

/// The network of a file, or the number of its first fault.
pub fn read(bytes: &[u8]) -> Result<Network, u32> {
    fields_of_file(bytes).map(|fields| from_fields(&fields))
}

/// The fields of a network, in file order. Values need not be in range.
pub fn fields_of(net: &Network) -> Vec<(usize, u32)> {
    let mut out = vec![(8, 1), (7, net.places as u32), (10, net.legs.len() as u32)];
    for leg in &net.legs {
        out.push((6, leg.from as u32));
        out.push((6, leg.to as u32));
        out.push((12, leg.time));
        out.push((4, leg.bands.len() as u32));
        for band in &leg.bands {
            out.push((12, band.start));
            out.push((16, band.toll));
        }
    }
    out
}

pub fn file_of(net: &Network) -> Vec<u8> {
    pack(&fields_of(net))
}

pub fn list_of(net: &Network) -> Vec<u32> {
    fields_of(net).iter().map(|&(_, value)| value).collect()
}

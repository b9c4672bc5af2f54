//! A second reading of wind records, by f64's own arithmetic. It does not
//! stop at a number's fault, so that it tells all faults in their order.

use super::rounding::to_nearest_even;

#[derive(Default)]
pub struct Walk {
    /// Refusals in their order, each with its record; the first one answers.
    /// Bytes left over count as one record more.
    pub faults: Vec<(u8, usize)>,
    /// Kinds and numbers of the whole records.
    pub kinds: Vec<u8>,
    pub numbers: Vec<u64>,
    /// The winds, of use where there is no fault.
    pub east: Vec<i16>,
    pub north: Vec<i16>,
    /// Where the whole records end.
    pub end: usize,
}

pub fn walked(bytes: &[u8], elements: usize) -> Walk {
    let mut walk = Walk::default();
    for element in 0..elements {
        let length = match bytes.get(walk.end) {
            Some(0) => 1,
            Some(1) => 17,
            Some(2) => 9,
            _ => usize::MAX,
        };
        if bytes.len() - walk.end < length {
            walk.faults.push((11, element));
            return walk;
        }
        let record = &bytes[walk.end..walk.end + length];
        walk.take(element, record);
        walk.end += length;
    }
    if walk.end < bytes.len() {
        walk.faults.push((11, elements));
    }
    walk
}

impl Walk {
    fn take(&mut self, element: usize, record: &[u8]) {
        let bits = |eight: &[u8]| u64::from_le_bytes(eight.try_into().unwrap());
        let bits: Vec<u64> = record[1..].chunks(8).map(bits).collect();
        let numbers: Vec<f64> = bits.iter().map(|&bits| f64::from_bits(bits)).collect();
        if numbers.iter().any(|number| !number.is_finite()) {
            self.faults.push((12, element));
        }
        // 4096 times a number is exact, or an infinity far above all winds.
        let c = |number: &f64| to_nearest_even(number * 4096.0);
        let beyond = |number: &f64| number.is_finite() && c(number).abs() > 1024.0;
        let c16 = |number: &f64| c(number) as i16;
        if numbers.iter().any(beyond) {
            self.faults.push((5, element));
        }
        self.kinds.push(record[0]);
        self.numbers.extend(bits);
        self.east.push(numbers.first().map_or(0, c16));
        self.north.push(numbers.get(1).map_or(0, c16));
    }

    /// The east number of a record of kind 1 that ends within the north one.
    pub fn cut_number(&self, bytes: &[u8]) -> Option<u64> {
        match &bytes[self.end..] {
            [1, rest @ ..] if (8..16).contains(&rest.len()) => {
                Some(u64::from_le_bytes(rest[..8].try_into().unwrap()))
            }
            _ => None,
        }
    }
}

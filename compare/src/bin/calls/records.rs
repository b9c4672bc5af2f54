//! Records of wind imports: those of a shape, and others that do not belong to it.

use crate::buffers::{Buffer, Buffers};
use compare::content;
use reference::import_generator::records;
use reference::import_numbers::{beyond, good, not_finite};
use reference::rng::Rng;
use reference::Shape;

/// Beside the records stand zeros: a call that read past an end would take them for calm records.
fn lay(b: &mut Buffers, bytes: &[u8]) {
    b.records = Buffer::new(bytes, 0);
}

/// Records of a shape, good or faulty: the reference's generator lays faults of its own.
pub fn lay_records(rng: &mut Rng, b: &mut Buffers, shape: Shape) {
    lay(b, &records(rng, shape.elements()));
}

/// No records, those of another count of elements, or some with a record in which several refusals meet.
pub fn spoil_records(rng: &mut Rng, b: &mut Buffers, shape: Shape) {
    let spoilt = match rng.below(8) {
        0 => Vec::new(),
        1 => {
            let other = content::shape(rng, 200);
            records(rng, other.elements())
        }
        2 => records(rng, shape.elements() + 1),
        3 => records(rng, shape.elements().max(2) - 1),
        _ => {
            let at = rng.index(shape.elements());
            with_faults_at(rng, b.records.space(), at)
        }
    };
    lay(b, &spoilt);
}

/// One record gets two numbers, each good, out of range or not finite; at times its kind is unknown or the bytes end within it.
/// Which refusal comes first within a record shows only where several meet there.
fn with_faults_at(rng: &mut Rng, bytes: &[u8], at: usize) -> Vec<u8> {
    let mut record = vec![rng.pick(&[1, 1, 1, 3])];
    for _ in 0..2 {
        let number = match rng.below(3) {
            0 => good(rng),
            1 => beyond(rng),
            _ => not_finite(rng),
        };
        record.extend(number.to_le_bytes());
    }
    let before = &bytes[..length_of(bytes, at)];
    let after = &bytes[length_of(bytes, at + 1)..];
    if rng.once_in(3) {
        record.truncate(rng.index(record.len()));
        return [before, &record].concat();
    }
    [before, &record, after].concat()
}

/// How many bytes the first `count` records take, or all bytes where there are fewer.
fn length_of(bytes: &[u8], count: usize) -> usize {
    let mut length = 0;
    for _ in 0..count {
        length += match bytes.get(length) {
            None => break,
            Some(1) => 17,
            Some(2) => 9,
            Some(_) => 1,
        };
    }
    length.min(bytes.len())
}

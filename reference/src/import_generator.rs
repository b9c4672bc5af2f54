//! Random record bytes for wind imports (request 2026-01). The faults are
//! laid into good records, so that how often a list is refused does not
//! depend on its length.

use crate::import_numbers::{beyond, good, not_finite};
use crate::rng::Rng;

/// A record before it becomes bytes. The kind may be an unknown one.
struct Draft {
    kind: u8,
    numbers: Vec<u64>,
}

/// "an unknown kind, a missing byte or bytes after the last record", "a
/// number not finite", and a wind beyond ±1024.
#[derive(Clone, Copy, PartialEq, Eq)]
enum Fault {
    Kind,
    Cut,
    LeftOver,
    NotFinite,
    Beyond,
}

use Fault::{Beyond, Cut, Kind, LeftOver, NotFinite};

/// Alone the faults of numbers are drawn more often, since in a pair they
/// often stand behind another one.
const FAULTS: [Fault; 7] = [Kind, Cut, LeftOver, NotFinite, NotFinite, Beyond, Beyond];

/// All pairs but Cut with LeftOver, which would mend one another. A kind
/// comes after a number, since a calm record that gets a number gets a kind
/// with it.
const PAIRS: [[Fault; 2]; 9] = [
    [Cut, Kind],
    [LeftOver, Kind],
    [NotFinite, Kind],
    [Beyond, Kind],
    [Cut, NotFinite],
    [Cut, Beyond],
    [LeftOver, NotFinite],
    [LeftOver, Beyond],
    [NotFinite, Beyond],
];

/// Record bytes for a shape of so many elements, of which there is at least
/// one. Of a hundred lists more than sixty are accepted.
pub fn records(rng: &mut Rng, elements: usize) -> Vec<u8> {
    let drafts = drafts(rng, elements);
    match rng.below(100) {
        0..=61 => parts(&drafts).concat(),
        62..=76 => {
            let fault = rng.pick(&FAULTS);
            faulty(rng, drafts, &[fault])
        }
        77..=92 => {
            let pair = rng.pick(&PAIRS);
            faulty(rng, drafts, &pair)
        }
        93..=96 => with_any_numbers(rng, drafts),
        97 | 98 => slipped(rng, parts(&drafts).concat()),
        _ => any_bytes(rng, elements),
    }
}

/// Each record's bytes.
fn parts(drafts: &[Draft]) -> Vec<Vec<u8>> {
    drafts.iter().map(Draft::bytes).collect()
}

impl Draft {
    /// A good record of a known kind.
    fn good(rng: &mut Rng, kind: u8) -> Draft {
        let count = match kind {
            0 => 0,
            1 => 2,
            _ => 1,
        };
        let numbers = (0..count).map(|_| good(rng)).collect();
        Draft { kind, numbers }
    }

    fn bytes(&self) -> Vec<u8> {
        let mut bytes = vec![self.kind];
        for number in &self.numbers {
            bytes.extend(number.to_le_bytes());
        }
        bytes
    }

    /// Puts the number in the place of one of the record's numbers; a calm
    /// record gets numbers first.
    fn put(&mut self, rng: &mut Rng, number: u64) {
        if self.numbers.is_empty() {
            let kind = rng.pick(&[1, 2]);
            *self = Draft::good(rng, kind);
        }
        let at = rng.index(self.numbers.len());
        self.numbers[at] = number;
    }
}

/// Good records, mostly of all kinds, at times of one kind alone.
fn drafts(rng: &mut Rng, elements: usize) -> Vec<Draft> {
    let mixed: &[u8] = &[0, 1, 1, 1, 2, 2];
    let kinds = rng.pick(&[mixed, mixed, mixed, mixed, mixed, &[0], &[1], &[2]]);
    let mut drafts = Vec::with_capacity(elements);
    for _ in 0..elements {
        let kind = rng.pick(kinds);
        drafts.push(Draft::good(rng, kind));
    }
    drafts
}

/// A record's place, often the first, the last or the middle one.
fn place(rng: &mut Rng, elements: usize) -> usize {
    match rng.below(5) {
        0 => 0,
        1 => elements - 1,
        2 => elements / 2,
        _ => rng.index(elements),
    }
}

/// Lays one or two faults, two of them in one record or in two.
fn faulty(rng: &mut Rng, mut drafts: Vec<Draft>, faults: &[Fault]) -> Vec<u8> {
    let mut at = place(rng, drafts.len());
    let mut cut_at = None;
    for &fault in faults {
        spoil(rng, &mut drafts[at], fault);
        if fault == Cut {
            cut_at = Some(at);
        }
        if !rng.once_in(3) {
            at = place(rng, drafts.len());
        }
    }
    // Last of all the faults of length, which regard the bytes.
    let mut parts = parts(&drafts);
    if let Some(at) = cut_at {
        let kept = rng.index(parts[at].len());
        parts[at].truncate(kept);
        parts.truncate(at + 1);
    }
    if faults.contains(&LeftOver) {
        parts.push(left_over(rng));
    }
    parts.concat()
}

fn spoil(rng: &mut Rng, draft: &mut Draft, fault: Fault) {
    match fault {
        Kind => {
            let any = 3 + rng.below(253) as u8;
            draft.kind = rng.pick(&[3, 3, 4, 16, 128, 255, any]);
        }
        NotFinite => {
            let number = not_finite(rng);
            draft.put(rng, number);
        }
        Beyond => {
            let number = beyond(rng);
            draft.put(rng, number);
        }
        Cut | LeftOver => {}
    }
}

/// One byte or some, among them whole records too many.
fn left_over(rng: &mut Rng) -> Vec<u8> {
    match rng.below(4) {
        0 => vec![0],
        1 => {
            let kind = rng.pick(&[1, 2]);
            Draft::good(rng, kind).bytes()
        }
        2 => vec![rng.draw() as u8],
        _ => (0..1 + rng.below(20)).map(|_| rng.draw() as u8).collect(),
    }
}

/// One or two numbers become any 64 bits. About half of these are winds out
/// of range, very few are not finite.
fn with_any_numbers(rng: &mut Rng, mut drafts: Vec<Draft>) -> Vec<u8> {
    for _ in 0..1 + rng.below(2) {
        let (at, number) = (place(rng, drafts.len()), rng.draw());
        drafts[at].put(rng, number);
    }
    parts(&drafts).concat()
}

/// A byte lost, doubled or with one bit turned; what follows may be read
/// from a wrong place.
fn slipped(rng: &mut Rng, mut bytes: Vec<u8>) -> Vec<u8> {
    let at = rng.index(bytes.len());
    match rng.below(3) {
        0 => drop(bytes.remove(at)),
        1 => bytes.insert(at, bytes[at]),
        _ => bytes[at] ^= 1 << rng.below(8),
    }
    bytes
}

/// Any bytes, with many that are kinds.
fn any_bytes(rng: &mut Rng, elements: usize) -> Vec<u8> {
    let count = rng.index(17 * elements + 2);
    let byte = |rng: &mut Rng| match rng.once_in(2) {
        true => rng.below(4) as u8,
        false => rng.draw() as u8,
    };
    (0..count).map(|_| byte(rng)).collect()
}

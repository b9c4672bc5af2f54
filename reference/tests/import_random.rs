//! Random records: what the generator meets, the import held to a reading of
//! the records by floats, and lists in which wind calls replace the imports.

mod rounding;
mod walk;

use reference::import_generator::records;
use reference::import_numbers::EDGE;
use reference::lists::{Answer, Call, State};
use reference::rng::Rng;
use reference::{generator, import, Way};
use std::collections::{BTreeMap, BTreeSet};
use walk::{walked, Walk};

const SIGN: u64 = 1 << 63;
const INFINITY: u64 = 2047 << 52;
const DRAWS: usize = 60_000;

/// Many lists of records for 1 to 6 elements, each with its reading.
fn draws() -> impl Iterator<Item = (usize, Vec<u8>, Walk)> {
    let mut rng = Rng::new(7);
    (0..DRAWS).map(move |at| {
        let elements = 1 + at % 6;
        let bytes = records(&mut rng, elements);
        let walk = walked(&bytes, elements);
        (elements, bytes, walk)
    })
}

#[test]
fn the_import_does_what_floats_say() {
    for (elements, bytes, walk) in draws() {
        let mut wind: Vec<i16> = (0..2 * elements as i16 + 2).map(|n| 3000 + n).collect();
        let mut expected = wind.clone();
        let answer = import(&mut wind, &bytes, elements, 1, 3);
        match walk.faults.first() {
            Some((number, _)) => assert_eq!(answer, Err(*number), "{bytes:?}"),
            None => {
                assert_eq!(answer, Ok(()), "{bytes:?}");
                expected[..elements].copy_from_slice(&walk.east);
                expected[elements..2 * elements].copy_from_slice(&walk.north);
            }
        }
        assert_eq!(wind, expected, "{bytes:?}");
    }
}

#[test]
fn six_in_ten_are_accepted_on_any_grid() {
    let mut rng = Rng::new(8);
    for (elements, count) in [(1, 10_000), (2, 10_000), (12, 10_000), (400, 1_000)] {
        let good = |_: &usize| {
            walked(&records(&mut rng, elements), elements)
                .faults
                .is_empty()
        };
        let share = (0..count).filter(good).count() * 100 / count;
        assert!((60..=70).contains(&share), "{share} of 100");
    }
}

#[test]
fn the_same_seed_gives_the_same_records() {
    for seed in 0..100 {
        let again = records(&mut Rng::new(seed), 9);
        assert_eq!(records(&mut Rng::new(seed), 9), again);
    }
}

/// Counts, by name, how often something was met.
#[derive(Default)]
struct Met(BTreeMap<String, u32>);

impl Met {
    fn count(&mut self, what: impl ToString) {
        *self.0.entry(what.to_string()).or_default() += 1;
    }

    fn at_least(&self, least: u32, what: impl ToString) {
        let what = what.to_string();
        let times = self.0.get(&what).copied().unwrap_or(0);
        assert!(times >= least, "{what} met {times} times");
    }
}

#[test]
fn every_fault_is_met_at_every_place() {
    let mut met = Met::default();
    for (elements, _, walk) in draws().filter(|(elements, ..)| *elements >= 3) {
        let (number, at) = match walk.faults.first() {
            Some(first) => *first,
            None => continue,
        };
        let place = match at {
            0 => "first",
            at if at == elements => "left over",
            at if at == elements - 1 => "last",
            _ => "middle",
        };
        met.count(format!("{number} {place}"));
    }
    for place in ["first", "middle", "last"] {
        for number in [5, 11, 12] {
            met.at_least(200, format!("{number} {place}"));
        }
    }
    met.at_least(200, "11 left over");
}

/// Two faults in one list: which answers, and which stands behind it.
#[test]
fn the_order_of_two_faults_shows() {
    let mut met = Met::default();
    for (elements, bytes, walk) in draws() {
        for pair in walk.faults.windows(2) {
            let [(a, at), (b, after)] = [pair[0], pair[1]];
            let place = match after {
                after if after == at => "in one record",
                after if after == elements => "left over",
                _ => "later",
            };
            met.count(format!("{a} then {b} {place}"));
        }
        // A record with an east number that would be 12 or 5, were it whole.
        if let (Some((11, _)), Some(number)) = (walk.faults.last(), walk.cut_number(&bytes)) {
            let number = f64::from_bits(number);
            if !number.is_finite() {
                met.count("12 in a cut record");
            } else if number.abs() > 1.0 {
                met.count("5 in a cut record");
            }
        }
    }
    met.at_least(100, "12 then 5 in one record");
    met.at_least(20, "12 in a cut record");
    met.at_least(20, "5 in a cut record");
    for (a, b) in [(5, 11), (12, 11), (5, 12), (12, 5)] {
        met.at_least(100, format!("{a} then {b} later"));
    }
    met.at_least(100, "5 then 11 left over");
    met.at_least(100, "12 then 11 left over");
}

#[test]
fn records_are_cut_at_every_length() {
    let mut met = Met::default();
    for (elements, bytes, walk) in draws() {
        if !matches!(walk.faults.last(), Some((11, at)) if *at < elements) {
            continue;
        }
        match &bytes[walk.end..] {
            [] => met.count("no kind"),
            [1, rest @ ..] => met.count(format!("kind 1 with {}", rest.len())),
            [2, rest @ ..] => met.count(format!("kind 2 with {}", rest.len())),
            [kind, ..] => met.count(format!("unknown {kind}")),
        }
    }
    met.at_least(200, "no kind");
    for length in 0..16 {
        met.at_least(20, format!("kind 1 with {length}"));
    }
    for length in 0..8 {
        met.at_least(20, format!("kind 2 with {length}"));
    }
    for kind in [3, 4, 16, 128, 255] {
        met.at_least(200, format!("unknown {kind}"));
    }
    let unknown = met.0.keys().filter(|what| what.starts_with("unknown"));
    assert!(unknown.count() > 200);
}

/// The names under which a number is counted.
fn names(bits: u64) -> Vec<String> {
    let size = bits & !SIGN;
    let sign = ["+", "-"][(bits >> 63) as usize];
    let halves = f64::from_bits(size) * 8192.0;
    let odd = |bits: u64| f64::from_bits(bits) * 8192.0 % 2.0 == 1.0;
    let mut names = Vec::new();
    let mut add = |name: String| names.push(format!("{sign}{name}"));
    match size {
        0 => add("0".into()),
        1..=0xF_FFFF_FFFF_FFFF => add("subnormal".into()),
        INFINITY => add("infinity".into()),
        _ if size > INFINITY => add("nan".into()),
        _ if size == 2046 << 52 => add("2^1023".into()),
        _ if size < 900 << 52 => add("tiny".into()),
        _ if size > 1100 << 52 => add("huge".into()),
        _ if size.abs_diff(EDGE) <= 2 => add(format!("edge {}", size as i64 - EDGE as i64)),
        _ if odd(size) => add(format!("half with {} below", (halves / 2.0) as u64 % 2)),
        _ if odd(size - 1) => add("above a half".into()),
        _ if odd(size + 1) => add("below a half".into()),
        _ => {}
    }
    if (1..INFINITY).contains(&size) && halves % 2.0 == 0.0 {
        add(format!("whole {}", halves / 2.0));
    }
    names
}

#[test]
fn every_kind_of_number_is_met() {
    let mut met = Met::default();
    let mut payloads = BTreeSet::new();
    for (.., walk) in draws() {
        for &bits in &walk.numbers {
            names(bits).iter().for_each(|name| met.count(name));
            if bits & !SIGN > INFINITY {
                payloads.insert(bits & !SIGN & !INFINITY);
            }
        }
        for kind in &walk.kinds {
            met.count(format!("kind {kind}"));
        }
    }
    for sign in ["+", "-"] {
        for name in ["0", "subnormal", "infinity", "nan", "tiny", "huge"] {
            met.at_least(100, format!("{sign}{name}"));
        }
        met.at_least(20, format!("{sign}2^1023"));
        for name in ["half with 0 below", "half with 1 below"] {
            met.at_least(1000, format!("{sign}{name}"));
        }
        for name in [
            "above a half",
            "below a half",
            "edge 0",
            "edge 1",
            "edge -1",
        ] {
            met.at_least(100, format!("{sign}{name}"));
        }
        for c in 1..=1025 {
            met.at_least(5, format!("{sign}whole {c}"));
        }
    }
    for kind in 0..3 {
        met.at_least(10_000, format!("kind {kind}"));
    }
    assert!([1, 1 << 51, (1 << 52) - 1]
        .iter()
        .all(|p| payloads.contains(p)));
    assert!(payloads.len() > 100);
}

/// The wind calls that bring the same winds, face by face.
fn face_by_face(walk: &Walk, nx: usize) -> Vec<Call> {
    let ways = [(Way::East, &walk.east), (Way::North, &walk.north)];
    let mut calls = Vec::new();
    for (way, winds) in ways {
        for (at, &c) in winds.iter().enumerate() {
            calls.push(Call::Wind(way, at % nx, at / nx, c));
        }
    }
    calls
}

#[test]
fn an_import_is_its_wind_calls() {
    let mut imports = 0;
    for (seed, (nx, ny, k)) in [(1, 1, 1), (1, 3, 2), (4, 1, 2), (3, 4, 2)]
        .into_iter()
        .cycle()
        .take(60)
        .enumerate()
    {
        let script = generator::script(3000 + seed as u64, nx, ny, k, 200).unwrap();
        let (mut state, mut other) = (State::new(nx, ny, k), State::new(nx, ny, k));
        for line in script.lines().skip(1) {
            let call: Call = line.parse().unwrap();
            let answer = state.run(&call);
            if let Call::Import(bytes) = &call {
                let walk = walked(bytes, nx * ny);
                let refused = walk.faults.first().map(|(number, _)| *number);
                assert_eq!(answer, refused.map_or(Answer::Accepted, Answer::Refused));
                if refused.is_none() {
                    imports += 1;
                    for call in face_by_face(&walk, nx) {
                        assert_eq!(other.run(&call), Answer::Accepted);
                    }
                }
            } else {
                assert_eq!(other.run(&call), answer);
            }
            assert_eq!((&state.field, &state.wind), (&other.field, &other.wind));
        }
    }
    assert!(imports > 200, "{imports} imports");
}

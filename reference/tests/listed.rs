//! Lists of calls with every number that they give, so that the definitions
//! can be evaluated on them and held to the same numbers. Two smokes, buffers
//! of exactly the needed lengths, field and wind all zero at the start.

mod named;
mod shared;

use named::smoke_of;
use reference::lists::{Call, State};
use reference::Shape;
use shared::Ledger;

/// Each call with its answer, an emission's, a withdrawal's and a step's with
/// the clipped mass (request 2026-04); then the wind, the two smokes' parts of
/// the field, each with its stored total (request 2026-06), and what the ledger holds of each after the last call.
struct Listing {
    shape: Shape,
    calls: &'static [(&'static str, &'static str)],
    wind: &'static [i16],
    parts: [&'static [u32]; 2],
    held: [&'static [i64]; 2],
}

/// In the first step of smoke 0 the west element holds 79 and would give 62
/// to the east (62.5, a half), 8 to the west against the wind there, and 10
/// over its own north face: all three are cut. In the second it holds 11, its
/// remainder 1 among them, and would give 7, 5 and 1. All these cuts are below
/// 6, so no share of them is kept by a face (request 2026-05). Smoke 0's
/// clipped masses by element are 48 and 4, then 4 and 0; smoke 1's are 0 and 6.
const ON_ONE_ROW: Listing = Listing {
    shape: Shape { nx: 2, ny: 1, k: 2 },
    calls: &[
        ("load 0 0 0 37 0 0 0 0 4 26 0 0 0 15 0 0 0 4 0", "accepted"),
        ("emission 0 1 0 16", "accepted clipped 0"),
        ("emission 1 2 0 100000001", "refused 8"),
        ("emission 1 0 0 172", "accepted clipped 0"),
        ("wind east 0 0 1024", "accepted"),
        ("wind east 1 0 700", "accepted"),
        ("wind east 2 0 -1025", "refused 5"),
        ("wind north 0 0 300", "accepted"),
        ("step 0", "accepted 61 -7 9 0 clipped 52"),
        ("step 1", "accepted 28 -4 8 0 clipped 6"),
        ("withdrawal 0 1 0 107", "accepted clipped 0"),
        ("withdrawal 0 1 0 54", "refused 10"),
        (
            "load 1 100000000 0 0 0 0 0 0 0 0 0 0 0 0 0 0 0 0 1",
            "refused 9",
        ),
        ("step 0", "accepted 5 -4 0 0 clipped 4"),
    ],
    wind: &[1024, 700, 300, 0],
    parts: [
        &[
            0, 0, 1, 0, 0, 0, 0, 0, 0, 1, //
            6, 3, 0, 1, 1, 0, 4, 2, 1, 11, //
            64,
        ],
        &[
            1, 4, 4, 1, 4, 4, 1, 4, 4, 14, //
            3, 0, 0, 3, 0, 0, 3, 0, 0, 14, //
            172,
        ],
    ],
    held: [&[2, 62], &[140, 32]],
};

/// The same numbers as on one row, but the winds come by an import (request
/// 2026-01): 1024.5, 300.5 and 699.5, halves that go to the even one, and the
/// second element's record has an east component only. It takes the place of
/// a wind call that set its north wind. The other imports are refused: by
/// their first fault, and with nothing written.
const BY_IMPORT: Listing = Listing {
    calls: &[
        ("load 0 0 0 37 0 0 0 0 4 26 0 0 0 15 0 0 0 4 0", "accepted"),
        ("emission 0 1 0 16", "accepted clipped 0"),
        ("emission 1 0 0 172", "accepted clipped 0"),
        ("wind north 1 0 55", "accepted"),
        (
            "import 1 0 0 0 0 0 2 208 63 0 0 0 0 0 200 178 63 2 0 0 0 0 0 220 197 63",
            "accepted",
        ),
        (
            "import 1 0 0 0 0 0 4 208 63 0 0 0 0 0 0 0 0 2 0 0 0 0 0 0 248 127",
            "refused 5",
        ),
        ("step 0", "accepted 61 -7 9 0 clipped 52"),
        ("import 2 0 0 0 0 0 0 240 255 3", "refused 12"),
        ("step 1", "accepted 28 -4 8 0 clipped 6"),
        ("withdrawal 0 1 0 107", "accepted clipped 0"),
        (
            "import 1 0 0 0 0 0 0 208 63 0 0 0 0 0 0 208 63 2 0 0 0 0 0 0 208",
            "refused 11",
        ),
        ("import 0 0 0", "refused 11"),
        ("step 0", "accepted 5 -4 0 0 clipped 4"),
    ],
    ..ON_ONE_ROW
};

/// Winds go all four ways. In the first step of smoke 0 the amounts that leave
/// element (1, 0) are cut, and two faces run against their winds. Its west face
/// holds back −107 + 90 = −17, so q = −2 (request 2026-05): three nodes of
/// element (0, 0) fall by 2, three of (1, 0) rise by 2. The other cut face holds
/// back 4. Smoke 0's clipped masses by element are 18 96 64 1, then 0 24 36 6,
/// then 2 4 7 0; smoke 1's are 2 0 5 1.
const ALL_FOUR_WAYS: Listing = Listing {
    shape: Shape { nx: 2, ny: 2, k: 2 },
    calls: &[
        (
            "load 0 24 38 0 6 0 0 0 0 0 21 0 22 15 0 0 8 0 0 35 0 3 15 31 10 0 0 0 24 2 0 24 2 0 38 0 0",
            "accepted",
        ),
        ("emission 0 1 1 16", "accepted clipped 0"),
        ("emission 1 2 0 100000001", "refused 8"),
        ("emission 1 0 0 172", "accepted clipped 0"),
        ("wind east 0 0 -1024", "accepted"),
        ("wind east 1 0 700", "accepted"),
        ("wind east 2 0 -1025", "refused 5"),
        ("wind east 0 1 300", "accepted"),
        ("wind east 1 1 300", "accepted"),
        ("wind north 0 0 500", "accepted"),
        ("wind north 1 0 -300", "accepted"),
        ("wind north 0 1 1024", "accepted"),
        ("wind north 1 1 250", "accepted"),
        ("step 0", "accepted -90 20 23 -3 -1 -12 57 12 clipped 179"),
        ("step 1", "accepted 0 0 0 0 19 0 -6 0 clipped 8"),
        ("step 0", "accepted -19 3 25 -2 10 -11 107 12 clipped 66"),
        ("withdrawal 0 0 1 207", "accepted clipped 0"),
        ("withdrawal 0 0 1 220", "refused 10"),
        (
            "load 1 100000000 0 0 0 0 0 0 0 0 0 0 0 0 0 0 0 0 1 0 0 0 0 0 0 0 0 0 0 0 0 0 0 0 0 0 0",
            "refused 9",
        ),
        ("step 0", "accepted -18 2 12 -2 30 -9 50 11 clipped 13"),
    ],
    wind: &[-1024, 700, 300, 300, 500, -300, 1024, 250],
    parts: [
        &[
            0, 11, 10, 6, 23, 1, 4, 14, 2, 15, //
            7, 0, 2, 0, 0, 0, 3, 0, 0, 14, //
            2, 3, 0, 0, 7, 6, 0, 7, 7, 0, //
            7, 4, 1, 14, 5, 0, 16, 4, 0, 22, //
            952,
        ],
        &[
            0, 0, 0, 3, 5, 1, 3, 7, 1, 19, //
            0, 0, 0, 0, 0, 0, 0, 0, 0, 0, //
            0, 2, 1, 0, 0, 0, 0, 0, 0, 16, //
            0, 0, 0, 0, 0, 0, 0, 0, 0, 0, //
            172,
        ],
    ],
    held: [&[527, 26, 185, 214], &[147, 0, 25, 0]],
};

/// Runs the calls that are kept and holds each answer to the list's. Gives
/// the state and the ledger after them.
fn run(listing: &Listing, kept: impl Fn(&Call) -> bool) -> (State, Ledger) {
    let Shape { nx, ny, k } = listing.shape;
    let mut state = State::new(nx, ny, k);
    let mut ledger = Ledger::new(listing.shape);
    for (line, expected) in listing.calls {
        let call: Call = line.parse().unwrap();
        if kept(&call) {
            let answer = state.run(&call);
            assert_eq!(answer.to_string(), *expected, "{line}");
            ledger.feed(&call, &answer);
        }
    }
    (state, ledger)
}

#[test]
fn the_whole_lists() {
    for listing in [ON_ONE_ROW, BY_IMPORT, ALL_FOUR_WAYS] {
        let (state, ledger) = run(&listing, |_| true);
        assert_eq!(state.field, listing.parts.concat());
        assert_eq!(state.wind, listing.wind);
        assert_eq!(ledger.held, listing.held.concat());
        // The stored total is the sum of what the ledger says (request 2026-06).
        for (part, held) in listing.parts.iter().zip(listing.held) {
            let total = i64::from(*part.last().unwrap());
            assert_eq!(total, held.iter().sum::<i64>());
        }
    }
}

#[test]
fn without_the_calls_on_smoke_1() {
    for listing in [ON_ONE_ROW, BY_IMPORT, ALL_FOUR_WAYS] {
        let (state, ledger) = run(&listing, |call| smoke_of(call) != Some(1));
        let (part, held) = (listing.parts[0], listing.held[0]);
        assert_eq!(state.field, [part, &vec![0; part.len()]].concat());
        assert_eq!(state.wind, listing.wind);
        assert_eq!(ledger.held, [held, &vec![0; held.len()]].concat());
    }
}

//! Random lists of calls: conservation, the ledger, struck calls.

mod named;
mod random;
mod shared;

use named::smoke_of;
use random::{calls, SHAPES};
use reference::checks::{element_mass, smoke_part};
use reference::lists::{Answer, Call, State};
use reference::{generator, Shape};
use shared::Ledger;

/// Every M, smoke by smoke; the stored totals aren't among them.
fn masses(state: &State) -> Vec<u64> {
    let shape = state.shape().unwrap();
    let smokes = state.field.chunks(shape.smoke_len());
    let elements = smokes.flat_map(|part| part.chunks_exact(10));
    elements.map(element_mass).collect()
}

/// The stored totals (request 2026-06).
fn totals(state: &State) -> Vec<u64> {
    let smokes = state.field.chunks(state.shape().unwrap().smoke_len());
    smokes
        .map(|part| u64::from(*part.last().unwrap()))
        .collect()
}

fn remainders_are_small(state: &State) -> bool {
    let mut smokes = state.field.chunks(state.shape().unwrap().smoke_len());
    smokes.all(|part| part.chunks_exact(10).all(|element| element[9] <= 35))
}

#[test]
fn steps_conserve_the_total() {
    let mut steps = 0;
    for (seed, &(nx, ny, k)) in SHAPES.iter().cycle().take(80).enumerate() {
        let mut state = State::new(nx, ny, k);
        for call in calls(seed as u64, (nx, ny, k)) {
            let before = masses(&state);
            if let (Call::Step(smoke), Answer::Stepped(..)) = (&call, state.run(&call)) {
                let after = masses(&state);
                let part = smoke * nx * ny..(smoke + 1) * nx * ny;
                let sum = |all: &[u64]| all[part.clone()].iter().sum::<u64>();
                assert_eq!(sum(&before), sum(&after));
                assert!(remainders_are_small(&state));
                steps += 1;
            }
        }
    }
    assert!(steps > 4000);
}

#[test]
fn the_ledger_holds_every_mass() {
    for (seed, &(nx, ny, k)) in SHAPES.iter().cycle().take(80).enumerate() {
        let mut ledger = Ledger::new(Shape { nx, ny, k });
        let mut state = State::new(nx, ny, k);
        for call in calls(1000 + seed as u64, (nx, ny, k)) {
            let answer = state.run(&call);
            ledger.feed(&call, &answer);
            let held = masses(&state).into_iter().map(|m| m as i64);
            assert!(held.eq(ledger.held.iter().copied()));
        }
    }
}

/// Document 02, 2026-06: "For any list from a fresh field the stored total is
/// the sum of what the ledger says each element holds."
#[test]
fn the_ledgers_sums_are_the_stored_totals() {
    for (seed, &(nx, ny, k)) in SHAPES.iter().cycle().take(80).enumerate() {
        let mut ledger = Ledger::new(Shape { nx, ny, k });
        let mut state = State::new(nx, ny, k);
        for call in calls(3000 + seed as u64, (nx, ny, k)) {
            let answer = state.run(&call);
            ledger.feed(&call, &answer);
            let sums = ledger.held.chunks(nx * ny).map(|held| held.iter().sum());
            assert_eq!(
                totals(&state),
                sums.map(|sum: i64| sum as u64).collect::<Vec<_>>()
            );
        }
    }
}

#[test]
fn other_smokes_can_be_struck() {
    for (seed, shape) in [(1, (3, 4, 2)), (2, (2, 2, 8)), (3, (5, 1, 2))] {
        let all = calls(seed, shape);
        let (nx, ny, k) = shape;
        let mut whole = State::new(nx, ny, k);
        let answers: Vec<Answer> = all.iter().map(|call| whole.run(call)).collect();
        for kept in 0..k {
            let mut state = State::new(nx, ny, k);
            for (call, answer) in all.iter().zip(&answers) {
                if smoke_of(call).map_or(true, |smoke| smoke == kept) {
                    assert_eq!(state.run(call), *answer);
                }
            }
            let shape = state.shape().unwrap();
            let part = |state: &State| smoke_part(&state.field, shape, kept).to_vec();
            assert_eq!(part(&state), part(&whole));
        }
    }
}

#[test]
fn lists_meet_every_refusal_they_can() {
    let (mut met, mut imports) = ([0; 13], 0);
    for (seed, &(nx, ny, k)) in SHAPES.iter().cycle().take(80).enumerate() {
        let mut state = State::new(nx, ny, k);
        for call in calls(2000 + seed as u64, (nx, ny, k)) {
            match (&call, state.run(&call)) {
                (_, Answer::Refused(number)) => met[number as usize] += 1,
                (Call::Import(_), _) => imports += 1,
                _ => {}
            }
        }
    }
    assert_eq!((met[1], met[2], met[3], met[6]), (0, 0, 0, 0));
    assert!(imports > 500, "{imports} imports accepted");
    for number in [4, 5, 7, 8, 9, 10, 11, 12] {
        assert!(
            met[number] > 100,
            "refusal {number} met {} times",
            met[number]
        );
    }
}

#[test]
fn scripts_come_back_the_same() {
    let script = generator::script(5, 3, 2, 2, 200).unwrap();
    let mut again = "grid 3 2 2\n".to_string();
    for line in script.lines().skip(1) {
        again.push_str(&format!("{}\n", line.parse::<Call>().unwrap()));
    }
    assert_eq!(script, again);
}

#[test]
fn a_list_prints_its_answers() {
    let script = "grid 1 1 1\nwind east 0 0 1024\nload 0 7 7 7 7 7 7 7 7 7\n\
                  emission 0 0 0 5\nstep 0\nmass 0 0 0\ntotal 0\ntotal 1\n\
                  withdrawal 0 0 0 258\nload 0 1\n";
    let printed = "accepted\naccepted\naccepted clipped 0\naccepted 63 0 clipped 0\n\
                   257\n257\nrefused 7\nrefused 10\nrefused 4\nfield 7 7 7 7 7 7 7 7 7 5 257\nwind 1024 0\n";
    assert_eq!(reference::lists::output(script).unwrap(), printed);
}

#[test]
fn imports_stand_in_scripts() {
    // −1024 and 1 by kind 1; then a number out of range, one not finite, a
    // record missing and a byte left over; then 1024 by kind 2, and calm.
    let script = "grid 1 1 1\nimport 1 0 0 0 0 0 0 208 191 0 0 0 0 0 0 48 63\n\
                  import 2 0 0 0 0 0 0 224 63\nimport 2 0 0 0 0 0 0 240 127\n\
                  import\nimport 0 0\n";
    let refused = "accepted\nrefused 5\nrefused 12\nrefused 11\nrefused 11\n";
    let printed = |more: &str| reference::lists::output(&(script.to_string() + more)).unwrap();
    let field = "field 0 0 0 0 0 0 0 0 0 0 0\n";
    assert_eq!(printed(""), format!("{refused}{field}wind -1024 1\n"));
    let east = printed("import 2 0 0 0 0 0 0 208 63\n");
    assert_eq!(east, format!("{refused}accepted\n{field}wind 1024 0\n"));
    let calm = printed("import 0\n");
    assert_eq!(calm, format!("{refused}accepted\n{field}wind 0 0\n"));
    assert!(reference::lists::output("grid 1 1 1\nimport 256\n").is_err());
}

/// Slow enough to show a wasteful step, even unoptimised.
#[test]
fn a_large_grid_is_quick() {
    let script = generator::script(9, 64, 64, 1, 40).unwrap();
    assert!(reference::lists::output(&script).is_ok());
}

//! Random lists with unsound fields (request 2026-06): a second reading of who
//! meets refusal 6 and why, and how often each cause is met.

mod named;

use named::smoke_of;
use reference::lists::{Answer, Call, State};
use reference::{unsound_generator, Shape};
use std::collections::BTreeMap;

const LIMIT: u64 = 100_000_000;
const WEIGHTS: [u64; 10] = [1, 4, 1, 4, 16, 4, 1, 4, 1, 1];

const SHAPES: [(usize, usize, usize); 5] = [(1, 1, 1), (1, 2, 2), (2, 2, 8), (5, 1, 2), (3, 4, 2)];

/// What elements hold together, by ten numbers each.
fn sum_of(elements: &[u32]) -> u64 {
    let numbers = elements.iter().enumerate();
    numbers
        .map(|(at, &number)| WEIGHTS[at % 10] * u64::from(number))
        .sum()
}

/// The calls of a random list with pokes.
fn calls(seed: u64, (nx, ny, k): (usize, usize, usize)) -> Vec<Call> {
    let script = unsound_generator::script(seed, nx, ny, k, 400).unwrap();
    let lines = script.lines().skip(1);
    lines.map(|line| line.parse().unwrap()).collect()
}

/// A smoke as it stands before a call.
struct Smoke<'a> {
    elements: &'a [u32],
    stored: u64,
}

impl Smoke<'_> {
    fn sum(&self) -> u64 {
        sum_of(self.elements)
    }

    /// Why an emission, a withdrawal or a reading of the element meets 6; none
    /// names an element off the grid.
    fn of_element(&self, at: Option<usize>) -> Vec<&'static str> {
        let mut causes = self.of_total();
        if let Some(at) = at {
            let element = &self.elements[10 * at..10 * at + 10];
            if element[9] > 35 {
                causes.push("its remainder");
            }
            if sum_of(element) > self.stored {
                causes.push("it holds more");
            }
        }
        causes
    }

    fn of_total(&self) -> Vec<&'static str> {
        match self.stored > LIMIT {
            true => vec!["stored above"],
            false => vec![],
        }
    }

    /// Why a call that sums meets 6.
    fn whole(&self) -> Vec<&'static str> {
        let mut causes = vec![];
        if self.elements.chunks(10).any(|element| element[9] > 35) {
            causes.push("a remainder");
        }
        if self.sum() > LIMIT {
            causes.push("sum above");
        }
        if self.sum() != self.stored {
            causes.push("they differ");
        }
        causes
    }
}

fn smokes(state: &State, shape: Shape) -> Vec<Smoke<'_>> {
    let mut smokes = Vec::new();
    for part in state.field.chunks(10 * shape.nx * shape.ny + 1) {
        let (&stored, elements) = part.split_last().unwrap();
        let stored = u64::from(stored);
        smokes.push(Smoke { elements, stored });
    }
    smokes
}

/// A call's name and why it must meet 6; None for a call that never does.
fn causes(call: &Call, state: &State, shape: Shape) -> Option<(String, Vec<&'static str>)> {
    let smokes = smokes(state, shape);
    let named = |s: &usize| smokes.get(*s);
    let at = |i: &usize, j: &usize| (*i < shape.nx && *j < shape.ny).then(|| j * shape.nx + i);
    let element = |name: &str, s, i, j| {
        let at = at(i, j);
        let where_it_is = if at.is_some() { "on" } else { "off" };
        let causes = named(s).map_or(vec![], |smoke| smoke.of_element(at));
        Some((format!("{name} {where_it_is}"), causes))
    };
    let whole = |name: &str, s| {
        let causes = named(s).map_or(vec![], Smoke::whole);
        Some((name.to_string(), causes))
    };
    match call {
        Call::Emission(s, i, j, _) => element("emission", s, i, j),
        Call::Withdrawal(s, i, j, _) => element("withdrawal", s, i, j),
        Call::Mass(s, i, j) => element("mass", s, i, j),
        Call::Total(s) => Some(("total".into(), named(s).map_or(vec![], Smoke::of_total))),
        Call::Step(s) => whole("step", s),
        Call::Map(s) => whole("map", s),
        Call::Write => {
            let all = smokes.iter().map(Smoke::whole);
            let first = all.into_iter().find(|causes| !causes.is_empty());
            Some(("write".into(), first.unwrap_or_default()))
        }
        Call::Wind(..) | Call::Import(_) | Call::Load(..) | Call::Poke(..) => None,
    }
}

/// How often each call met 6 by one cause alone, was accepted in a sound or an
/// unsound smoke, or met another refusal there.
type Met = BTreeMap<String, u64>;

fn count(met: &mut Met, call: &Call, before: &State, after: &State, answer: &Answer) {
    let shape = before.shape().unwrap();
    let refused = matches!(answer, Answer::Refused(_));
    assert!(!refused || before.field == after.field && before.wind == after.wind);
    let (name, causes) = match causes(call, before, shape) {
        Some(told) => told,
        None => return assert_ne!(*answer, Answer::Refused(6)),
    };
    // All that come before 6 are well here: shapes, lengths and winds.
    assert_eq!(*answer == Answer::Refused(6), !causes.is_empty(), "{call}");
    let smoke = smoke_of(call).unwrap_or(0);
    let smokes = smokes(before, shape);
    let sound = smokes
        .get(smoke)
        .map_or(true, |smoke| smoke.whole().is_empty());
    let what = match (answer, &causes[..]) {
        (Answer::Refused(6), [cause]) => cause.to_string(),
        (Answer::Refused(6), _) => "several causes".to_string(),
        (Answer::Refused(number), _) if sound => format!("{number}"),
        (Answer::Refused(number), _) => format!("{number} though unsound"),
        _ if sound => "accepted".to_string(),
        _ => "accepted though unsound".to_string(),
    };
    *met.entry(format!("{name}: {what}")).or_default() += 1;
}

/// Each of these is met more than a few times.
fn wanted() -> Vec<String> {
    let mut wanted = vec!["total: stored above".to_string()];
    let mut add = |names: &[&str], whats: &[&str]| {
        for name in names {
            wanted.extend(whats.iter().map(|what| format!("{name}: {what}")));
        }
    };
    let elements = ["emission", "withdrawal", "mass"];
    for name in elements {
        let (on, off) = (format!("{name} on"), format!("{name} off"));
        let own = ["stored above", "its remainder", "it holds more"];
        add(&[&on], &own);
        add(&[&on], &["accepted", "accepted though unsound"]);
        add(&[&off], &["stored above", "8", "8 though unsound"]);
    }
    add(&["emission on"], &["9", "9 though unsound"]);
    add(&["withdrawal on"], &["10", "10 though unsound"]);
    add(&["total"], &["accepted", "accepted though unsound"]);
    let own = ["a remainder", "sum above", "they differ", "accepted"];
    add(&["step", "map", "write"], &own);
    wanted
}

#[test]
fn every_cause_is_met_and_no_other() {
    let mut met = Met::new();
    for (seed, &shape) in SHAPES.iter().cycle().take(200).enumerate() {
        let (nx, ny, k) = shape;
        let mut state = State::new(nx, ny, k);
        for call in calls(seed as u64, shape) {
            let before = state.clone();
            let answer = state.run(&call);
            count(&mut met, &call, &before, &state, &answer);
        }
    }
    for (what, times) in &met {
        println!("{times:6} {what}");
    }
    for what in wanted() {
        assert!(met.get(&what).map_or(false, |&times| times > 20), "{what}");
    }
}

/// What each accepted call does to the stored totals, in unsound smokes too.
#[test]
fn stored_totals_follow_the_calls() {
    for (seed, &shape) in SHAPES.iter().cycle().take(80).enumerate() {
        let (nx, ny, k) = shape;
        let mut state = State::new(nx, ny, k);
        let mut totals = vec![0; k];
        for call in calls(1000 + seed as u64, shape) {
            let answer = state.run(&call);
            match (&call, answer) {
                (_, Answer::Refused(_)) => {}
                (Call::Load(s, _), _) => {
                    totals[*s] = smokes(&state, Shape { nx, ny, k })[*s].sum();
                }
                (Call::Emission(s, _, _, q), _) => totals[*s] += q,
                (Call::Withdrawal(s, _, _, q), _) => totals[*s] -= q,
                (Call::Poke(s, at, number), _) if *at == 10 * nx * ny => {
                    totals[*s] = u64::from(*number);
                }
                (Call::Total(s), answer) => assert_eq!(answer, Answer::Number(totals[*s])),
                _ => {}
            }
            let stored = smokes(&state, Shape { nx, ny, k });
            assert!(stored
                .iter()
                .map(|smoke| smoke.stored)
                .eq(totals.iter().copied()));
        }
    }
}

/// Calls look at their own smoke alone, be it sound or not. File writing looks
/// at all, so its answers may change.
#[test]
fn other_smokes_can_be_struck() {
    for (seed, shape) in [(1, (3, 4, 2)), (2, (2, 2, 8)), (3, (5, 1, 2))] {
        let all = calls(2000 + seed, shape);
        let (nx, ny, k) = shape;
        let mut whole = State::new(nx, ny, k);
        let answers: Vec<Answer> = all.iter().map(|call| whole.run(call)).collect();
        for kept in 0..k {
            let mut state = State::new(nx, ny, k);
            for (call, answer) in all.iter().zip(&answers) {
                if smoke_of(call).map_or(*call != Call::Write, |smoke| smoke == kept) {
                    assert_eq!(state.run(call), *answer);
                }
            }
            let part = |state: &State| {
                let one = 10 * nx * ny + 1;
                state.field[kept * one..(kept + 1) * one].to_vec()
            };
            assert_eq!(part(&state), part(&whole));
        }
    }
}

#[test]
fn scripts_come_back_the_same() {
    let script = unsound_generator::script(5, 3, 2, 2, 200).unwrap();
    let mut again = "grid 3 2 2\n".to_string();
    for line in script.lines().skip(1) {
        again.push_str(&format!("{}\n", line.parse::<Call>().unwrap()));
    }
    assert_eq!(script, again);
}

/// Pokes, the map and file writing in a script.
#[test]
fn a_list_prints_its_answers() {
    let script = "grid 1 1 2\nload 1 1 1 1 1 1 1 1 1 1\nmap 1\nwrite\npoke 1 10 37\n\
                  map 1\nwrite\nstep 1\nmap 0\ntotal 1\nmass 1 0 0\nemission 1 0 0 3\n\
                  poke 1 9 36\nmass 1 0 0\ntotal 1\npoke 1 10 100000001\ntotal 1\nmass 1 1 0\n\
                  poke 1 10 100000000\nmass 1 1 0\nmap 2\n";
    let printed = "accepted\n222\n116\npoked\nrefused 6\nrefused 6\nrefused 6\n222\n37\n36\n\
                   accepted clipped 0\npoked\nrefused 6\n40\npoked\nrefused 6\nrefused 6\n\
                   poked\nrefused 8\nrefused 7\n\
                   field 0 0 0 0 0 0 0 0 0 0 0 1 1 1 1 1 1 1 1 1 36 100000000\nwind 0 0\n";
    assert_eq!(reference::lists::output(script).unwrap(), printed);
}

#[test]
fn a_poke_must_name_a_place() {
    for (line, good) in [
        ("poke 1 20 5", true),
        ("poke 1 21 5", false),
        ("poke 2 0 5", false),
        ("poke 1 20", false),
        ("poke 1 20 4294967296", false),
    ] {
        let script = format!("grid 2 1 2\n{line}\n");
        assert_eq!(reference::lists::output(&script).is_ok(), good, "{line}");
    }
    assert!(reference::lists::output("grid 0 1 1\npoke 0 0 0\n").is_err());
}

//! The nodal values of one smoke beside a step: before it, after it with held
//! smoke levelled, and after it with held smoke by its face (request 2026-05).

use crate::calls::signed_values;
use crate::checks::smoke_elements;
use crate::closing::Nodes;
use crate::held::Held;
use crate::lists::{parsed, Call, State};
use crate::shape::{Shape, PER_ELEMENT};
use crate::step::step_with;

/// Runs a script's calls but the last, which must be a step, and prints the
/// three maps of that step.
pub fn output(script: &str) -> Result<String, String> {
    let (mut state, mut calls) = parsed(script)?;
    let smoke = match calls.pop() {
        Some(Call::Step(smoke)) => smoke,
        _ => return Err("the last call must be a step".to_string()),
    };
    for call in &calls {
        state.run(call);
    }
    Ok(maps(&state, smoke).unwrap_or_else(|number| format!("refused {number}\n")))
}

fn maps(state: &State, smoke: usize) -> Result<String, u8> {
    let shape = state.shape()?;
    let levelled = stepped(Held::Levelled, state, shape, smoke)?;
    let by_its_face = stepped(Held::ByItsFace, state, shape, smoke)?;
    let parts = [&state.field, &levelled, &by_its_face].map(|f| smoke_elements(f, shape, smoke));
    let largest = parts.concat().into_iter().max();
    let width = 1 + largest.map_or(0, |number| number.to_string().len());
    let [before, levelled, by_its_face] = parts.map(|part| map(part, shape, width));
    Ok(format!(
        "before the step\n{before}\n\
         after it, held smoke levelled\n{levelled}\n\
         after it, held smoke by its face\n{by_its_face}"
    ))
}

/// The field after the step; the state stays as it is.
fn stepped(held: Held, state: &State, shape: Shape, smoke: usize) -> Result<Vec<u32>, u8> {
    let Shape { nx, ny, k } = shape;
    let mut field = state.field.clone();
    let (mut report, mut work) = (vec![0; shape.wind_len()], vec![0; shape.work_len()]);
    let (report, work) = (&mut report, &mut work);
    step_with(
        held,
        &mut field,
        &state.wind,
        report,
        work,
        nx,
        ny,
        k,
        smoke,
    )?;
    Ok(field)
}

/// One line per row of nodes, northmost first. Bars and rules lie between
/// elements; remainders are left out.
fn map(part: &[u32], shape: Shape, width: usize) -> String {
    let elements: Vec<Nodes> = part.chunks_exact(PER_ELEMENT).map(signed_values).collect();
    let three = |i, j, b: usize| {
        let values = &elements[shape.element(i, j)][3 * b..3 * b + 3];
        values.iter().map(|v| format!("{v:>width$}")).collect()
    };
    let row = |j, b| {
        let line: Vec<String> = (0..shape.nx).map(|i| three(i, j, b)).collect();
        line.join(" |") + "\n"
    };
    let rows = |j| (0..3).rev().map(|b| row(j, b)).collect::<String>();
    let rule = vec!["-".repeat(3 * width); shape.nx].join("-+") + "\n";
    let all: Vec<String> = (0..shape.ny).rev().map(rows).collect();
    all.join(&rule)
}

//! The plan by its definition.

use crate::cells::{choices_of, Choice};
use crate::table::check;
use crate::{Plan, Refusal};

/// The plan by listing every selection of permitted modes. The time grows with the product of the
/// mode counts, so this is for small tables; it has no workspace in it.
pub fn plan_by_listing(table: &[u8]) -> Result<(Plan, Vec<u8>), Refusal> {
    let header = check(table)?;
    let tasks = choices_of(table)?;
    let mut best: Option<Selection> = None;
    let mut places = vec![0; tasks.len()];
    loop {
        let selection = select(&tasks, &places);
        let fits = selection.cores <= usize::from(header.cores);
        // Least cost, then fewest cores, then the lowest mode where two first differ: the order of
        // the fields.
        if fits && best.as_ref().is_none_or(|best| selection < *best) {
            best = Some(selection);
        }
        if !advance(&tasks, &mut places) {
            break;
        }
    }
    let Some(Selection { cost, cores, modes }) = best else {
        return Err(Refusal::new(14));
    };
    Ok((Plan { cores: cores as u32, cost }, modes))
}

#[derive(PartialEq, Eq, PartialOrd, Ord)]
struct Selection {
    cost: u64,
    cores: usize,
    modes: Vec<u8>,
}

fn select(tasks: &[Vec<Choice>], places: &[usize]) -> Selection {
    let mut selection = Selection { cost: 0, cores: 0, modes: Vec::with_capacity(tasks.len()) };
    for (choices, &place) in tasks.iter().zip(places) {
        let choice = &choices[place];
        selection.cost += choice.cost;
        selection.cores += choice.need;
        selection.modes.push(choice.mode);
    }
    selection
}

/// Goes on to the next selection; false after the last.
fn advance(tasks: &[Vec<Choice>], places: &mut [usize]) -> bool {
    for (choices, place) in tasks.iter().zip(places).rev() {
        *place += 1;
        if *place < choices.len() {
            return true;
        }
        *place = 0;
    }
    false
}

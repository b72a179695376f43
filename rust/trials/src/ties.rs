//! Which of the two tie rules decided a plan.

use reference::{check, choices_of, portion, workspace_length, Choice, MARK};

/// Whether each of the tie rules decided a plan: without the rule, it would be another or there
/// would be two.
#[derive(Debug, Clone, Copy, PartialEq, Eq)]
pub struct Ties {
    /// Of the fitting selections with the least cost, the one with the lowest mode number in the
    /// first task where two differ isn't the plan: it uses more cores.
    pub fewest_cores: bool,
    /// Another fitting selection has the plan's cost and uses as many cores.
    pub lowest_mode: bool,
}

impl Ties {
    /// The ties of a table's plan; none where there is no plan.
    pub fn of(table: &[u8]) -> Option<Self> {
        let header = check(table).ok()?;
        let tasks = choices_of(table).ok()?;
        let mut cells = vec![0; workspace_length(&header)];
        portion(table, &mut cells, 0, u32::MAX).ok()?;
        let most = usize::from(header.cores);
        // Row 0 stands last in the workspace.
        let rows: Vec<&[u64]> = cells.chunks_exact(most + 1).rev().collect();
        let cost = rows[0][most];
        if cost == MARK {
            return None;
        }
        // A selection with the least cost and no more cores than this uses just as many.
        let fewest = rows[0].iter().position(|&cell| cell == cost)?;
        let plan = follow(&tasks, &rows, fewest, Pick::Lowest)?;
        Some(Ties {
            fewest_cores: follow(&tasks, &rows, most, Pick::Lowest)? != plan,
            lowest_mode: follow(&tasks, &rows, fewest, Pick::Highest)? != plan,
        })
    }
}

/// Which of the modes that keep a cell's cost is taken.
#[derive(Clone, Copy)]
enum Pick {
    Lowest,
    Highest,
}

/// Follows filled cells from row 0. Of all selections with the least cost among those of at most so
/// many cores, this gives the one with the lowest or highest mode number where two first differ; so
/// the two ways meet in one selection just where there is no other.
fn follow(tasks: &[Vec<Choice>], rows: &[&[u64]], cores: usize, pick: Pick) -> Option<Vec<u8>> {
    let mut column = cores;
    let modes = tasks.iter().zip(rows.windows(2)).map(|(choices, row)| {
        let mut kept = choices.iter().filter(|choice| {
            let rest = column.checked_sub(choice.need).map(|column| row[1][column]);
            rest.and_then(|rest| rest.checked_add(choice.cost)) == Some(row[0][column])
        });
        let choice = match pick {
            Pick::Lowest => kept.next(),
            Pick::Highest => kept.next_back(),
        }?;
        column -= choice.need;
        Some(choice.mode)
    });
    modes.collect()
}

#[cfg(test)]
mod tests {
    use super::*;
    use crate::tables::{full_table, random_table, with_ties, Sizes, Table, Task};
    use crate::Random;

    /// Cost, cores and modes of a selection.
    type Selection = (u64, usize, Vec<u8>);

    fn selections(tasks: &[Vec<Choice>]) -> Vec<Selection> {
        let Some((choices, rest)) = tasks.split_first() else {
            return vec![(0, 0, Vec::new())];
        };
        let rest = selections(rest);
        let with = |choice: &Choice, (cost, cores, modes): &Selection| {
            (cost + choice.cost, cores + choice.need, [&[choice.mode], &modes[..]].concat())
        };
        let all = choices.iter().flat_map(|choice| rest.iter().map(move |rest| with(choice, rest)));
        all.collect()
    }

    /// The ties by listing all selections.
    fn listed(table: &[u8]) -> Option<Ties> {
        let most = usize::from(check(table).unwrap().cores);
        let mut fitting = selections(&choices_of(table).unwrap());
        fitting.retain(|&(_, cores, _)| cores <= most);
        let (cost, cores, plan) = fitting.iter().min()?;
        let cheapest = || fitting.iter().filter(|other| other.0 == *cost);
        let without_cores = cheapest().map(|(_, _, modes)| modes).min()?;
        let alike = cheapest().filter(|other| other.1 == *cores).count();
        Some(Ties { fewest_cores: without_cores != plan, lowest_mode: alike > 1 })
    }

    #[test]
    fn ties_are_those_by_listing() {
        let mut random = Random::new(7);
        let mut seen = [0; 5];
        for _ in 0..3000 {
            let common_period = random.one_of(&[4, 12, 1000]);
            let sizes = Sizes { tasks: 4, modes: 4, cores: 12, common_period };
            let mut table = random_table(&mut random, sizes);
            if random.once_in(2) {
                table = with_ties(&mut random, table);
            }
            let table = table.bytes();
            let ties = Ties::of(&table);
            assert_eq!(ties, listed(&table));
            let place =
                |ties: Ties| 2 * usize::from(ties.fewest_cores) + usize::from(ties.lowest_mode);
            seen[ties.map_or(4, place)] += 1;
        }
        assert!(seen.iter().all(|&count| count >= 50), "{seen:?}");
    }

    #[test]
    fn both_rules_decide_plans_of_the_largest_tables() {
        let mut random = Random::new(8);
        let [mut fewest_cores, mut lowest_mode] = [0; 2];
        for _ in 0..100 {
            let table = full_table(&mut random, Sizes::LARGEST);
            let table = with_ties(&mut random, table).bytes();
            if let Some(ties) = Ties::of(&table) {
                fewest_cores += u32::from(ties.fewest_cores);
                lowest_mode += u32::from(ties.lowest_mode);
            }
        }
        assert!(fewest_cores >= 5 && lowest_mode >= 5, "{fewest_cores}, {lowest_mode}");
    }

    #[test]
    fn ties_of_the_documents_tables() {
        let ties = |table: Table| Ties::of(&table.bytes());
        let sample = Ties { fewest_cores: false, lowest_mode: true };
        assert_eq!(ties(Table::sample(4)), Some(sample));
        assert_eq!(ties(Table::sample(2)), None);
        let tie = [Task::new(1, &[[1200, 900, 1000], [1200, 200, 1000]])];
        let cores = Ties { fewest_cores: true, lowest_mode: false };
        assert_eq!(ties(Table::new(1000, 4, &tie)), Some(cores));
        // With 2 cores mode 0 doesn't fit.
        let neither = Ties { fewest_cores: false, lowest_mode: false };
        assert_eq!(ties(Table::new(1000, 2, &tie)), Some(neither));
    }
}

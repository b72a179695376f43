//! The limits, and the rules for one mode.

use crate::Figures;

const MOST_TASKS: u16 = 32;
const MOST_CORES: u16 = 64;
const MOST_COMMON_PERIOD: u32 = 100_000;
const MOST_MODES: u8 = 16;
const MOST_ELASTICITY: u8 = 10;
/// A mode's work is at most this many of its periods.
const MOST_WORK: u32 = 64;
/// Divisible by every elasticity, so that no cost is a fraction.
const COST_UNIT: u64 = 2520;

pub(crate) fn is_task_number(number: u16) -> bool {
    number < MOST_TASKS
}

pub(crate) fn is_common_period(common_period: u32) -> bool {
    (1..=MOST_COMMON_PERIOD).contains(&common_period)
}

pub(crate) fn is_header(tasks: u16, cores: u16, common_period: u32) -> bool {
    (1..=MOST_TASKS).contains(&tasks)
        && (1..=MOST_CORES).contains(&cores)
        && is_common_period(common_period)
}

pub(crate) fn is_task(elasticity: u8, modes: u8) -> bool {
    (1..=MOST_ELASTICITY).contains(&elasticity) && (1..=MOST_MODES).contains(&modes)
}

/// At least one mode is permitted, and none at or beyond the count.
pub(crate) fn is_permitted(permitted: u16, modes: u8) -> bool {
    permitted != 0 && u32::from(permitted) >> modes == 0
}

pub(crate) fn allows(permitted: u16, mode: u8) -> bool {
    permitted >> mode & 1 == 1
}

/// The number under which a mode is refused in a table with this common period.
pub(crate) fn check_mode(figures: Figures, common_period: u32) -> Result<(), u8> {
    let Figures { work, span, period } = figures;
    if period == 0 || !common_period.is_multiple_of(period) {
        return Err(11);
    }
    // The period divides the common one by now, so its multiple has room.
    if work == 0 || span == 0 || span > work || work > MOST_WORK * period {
        return Err(12);
    }
    match cores(figures) {
        Some(_) => Ok(()),
        None => Err(13),
    }
}

/// The cores that a mode needs, or none where it can't meet its period.
pub fn cores(figures: Figures) -> Option<u32> {
    let Figures { work, span, period } = figures;
    if work == span && span <= period {
        Some(1)
    } else if span < period && work > span {
        Some((work - span).div_ceil(period - span))
    } else {
        None
    }
}

/// The work done in one common period.
pub(crate) fn demand(figures: Figures, common_period: u32) -> u64 {
    u64::from(figures.work) * u64::from(common_period / figures.period)
}

/// The cost of a mode with this demand, where mode 0 has the demand `nominal`.
pub(crate) fn cost(elasticity: u8, nominal: u64, demand: u64) -> u64 {
    COST_UNIT / u64::from(elasticity) * nominal.abs_diff(demand).pow(2)
}

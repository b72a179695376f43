//! The nine calls, made on either side, with answers of one form.

#[cfg(feature = "same-loops")]
use reference::same_loops;

/// An answer, as the C interface gives it: number 0 is no refusal.
#[derive(Debug, Clone, Copy, PartialEq, Eq)]
pub struct Reply {
    /// The refusal number, or 0.
    pub number: u32,
    /// Where it was refused.
    pub at: u32,
    /// The answer's values in the order of its fields, 0 for the rest.
    pub values: [u64; 3],
}

impl Reply {
    /// The answer of a call that wasn't refused.
    pub fn given(values: [u64; 3]) -> Self {
        Reply { number: 0, at: 0, values }
    }

    /// The answer of a refused call.
    pub fn refused(number: u8, at: u32) -> Self {
        Reply { number: number.into(), at, values: [0; 3] }
    }
}

/// A call with its numbers; what it is lent comes apart from it.
#[derive(Debug, Clone, Copy, PartialEq, Eq)]
#[allow(missing_docs)]
pub enum Call {
    Check,
    AskTask { task: u32 },
    AskMode { task: u32, mode: u32 },
    AskChoice { task: u32, mode: u32 },
    Portion { progress: u32, budget: u32 },
    Take { progress: u32 },
    WriteHeader { tasks: u16, cores: u16, common_period: u32 },
    WriteTask { common_period: u32, number: u16, elasticity: u8, modes: u8, permitted: u16 },
    PlanWhole,
}

impl Call {
    /// The calls' names, in the order of their numbers.
    pub const NAMES: [&'static str; 9] = [
        "check",
        "ask_task",
        "ask_mode",
        "ask_choice",
        "portion",
        "take",
        "write_header",
        "write_task",
        "plan_whole",
    ];

    /// The call's number, from 0.
    pub fn number(&self) -> usize {
        match self {
            Call::Check => 0,
            Call::AskTask { .. } => 1,
            Call::AskMode { .. } => 2,
            Call::AskChoice { .. } => 3,
            Call::Portion { .. } => 4,
            Call::Take { .. } => 5,
            Call::WriteHeader { .. } => 6,
            Call::WriteTask { .. } => 7,
            Call::PlanWhole => 8,
        }
    }

    /// Whether the call may change the workspace.
    pub fn fills(&self) -> bool {
        matches!(self, Call::Portion { .. } | Call::PlanWhole)
    }

    /// Whether the call may write to the output.
    pub fn writes(&self) -> bool {
        matches!(
            self,
            Call::Take { .. } | Call::WriteHeader { .. } | Call::WriteTask { .. } | Call::PlanWhole
        )
    }
}

/// What a call is lent; each call uses its part of it.
#[derive(Debug)]
#[allow(missing_docs)]
pub struct Lent<'a> {
    pub table: &'a [u8],
    pub figures: &'a [u32],
    pub cells: &'a mut [u64],
    pub out: &'a mut [u8],
}

/// One of the two sides.
pub type Side = fn(&Call, Lent) -> Reply;

/// The proved planner's calls with their numbers one by one, as C and the reference take them.
mod planner {
    pub use shunguleta::{ask_choice, ask_mode, ask_task, check, plan_whole, write_header};
    use shunguleta::{Plan, Progress, Refusal, Task};

    pub fn portion(
        table: &[u8],
        cells: &mut [u64],
        progress: u32,
        budget: u32,
    ) -> Result<u32, Refusal> {
        let progress = shunguleta::portion(table, cells, Progress::new(progress), budget)?;
        Ok(progress.filled() as u32)
    }

    pub fn take(
        table: &[u8],
        cells: &[u64],
        progress: u32,
        out: &mut [u8],
    ) -> Result<Plan, Refusal> {
        shunguleta::take(table, cells, Progress::new(progress), out)
    }

    pub fn write_task(
        common_period: u32,
        number: u16,
        elasticity: u8,
        modes: u8,
        permitted: u16,
        figures: &[u32],
        out: &mut [u8],
    ) -> Result<(), Refusal> {
        let task = Task::new(elasticity, modes, permitted);
        shunguleta::write_task_flat(common_period, number, task, figures, out)
    }
}

/// The two sides have the same functions over types of their own.
macro_rules! side {
    ($name:ident, $planner:ident, $text:literal) => {
        #[doc = $text]
        pub fn $name(call: &Call, lent: Lent) -> Reply {
            let Lent { table, figures, cells, out } = lent;
            let answer = match *call {
                Call::Check => $planner::check(table).map(|header| {
                    [header.tasks.into(), header.cores.into(), header.common_period.into()]
                }),
                Call::AskTask { task } => $planner::ask_task(table, task)
                    .map(|task| [task.elasticity.into(), task.modes.into(), task.permitted.into()]),
                Call::AskMode { task, mode } => $planner::ask_mode(table, task, mode)
                    .map(|mode| [mode.work.into(), mode.span.into(), mode.period.into()]),
                Call::AskChoice { task, mode } => $planner::ask_choice(table, task, mode)
                    .map(|choice| [choice.permitted.into(), choice.cores.into(), choice.cost]),
                Call::Portion { progress, budget } => {
                    $planner::portion(table, cells, progress, budget)
                        .map(|progress| [progress.into(), 0, 0])
                }
                Call::Take { progress } => $planner::take(table, cells, progress, out)
                    .map(|plan| [plan.cores.into(), plan.cost, 0]),
                Call::WriteHeader { tasks, cores, common_period } => {
                    $planner::write_header(tasks, cores, common_period, out).map(|()| [0; 3])
                }
                Call::WriteTask { common_period, number, elasticity, modes, permitted } => {
                    $planner::write_task(
                        common_period,
                        number,
                        elasticity,
                        modes,
                        permitted,
                        figures,
                        out,
                    )
                    .map(|()| [0; 3])
                }
                Call::PlanWhole => $planner::plan_whole(table, cells, out)
                    .map(|plan| [plan.cores.into(), plan.cost, 0]),
            };
            match answer {
                Ok(values) => Reply::given(values),
                Err(refusal) => Reply::refused(refusal.number, refusal.at),
            }
        }
    };
}

side!(by_reference, reference, "Makes a call of the reference.");
side!(by_planner, planner, "Makes a call of the proved planner.");
#[cfg(feature = "same-loops")]
side!(by_same_loops, same_loops, "Makes a call of the reference with the planner's own loops.");

//! The function that the README has for Rust.

// From here
/// Each task's mode, and the cores that it needs.
fn plan_table(table: &[u8]) -> Result<Vec<(u8, u32)>, shunguleta::Refusal> {
    let header = shunguleta::check(table)?;
    let mut cells = vec![0; header.cells()];
    let mut modes = vec![0; header.tasks.into()];
    shunguleta::plan_whole(table, &mut cells, &mut modes)?;
    let mut plan = Vec::new();
    for (task, mode) in (0..).zip(modes) {
        plan.push((mode, shunguleta::ask_choice(table, task, mode.into())?.cores));
    }
    Ok(plan)
}
// to here.

#[test]
fn it_is_the_readmes() {
    let readme = concat!(env!("CARGO_MANIFEST_DIR"), "/../../README.md");
    let readme = std::fs::read_to_string(readme).unwrap();
    let (_, rest) = include_str!("readme.rs").split_once("// From here\n").unwrap();
    let (lines, _) = rest.split_once("// to here.\n").unwrap();
    let indented: String = lines.lines().map(|line| format!("    {line}\n")).collect();
    assert!(readme.contains(&indented), "{indented}");
}

#[test]
fn it_plans_a_table() {
    let mut table = [0; 2 * shunguleta::BLOCK];
    shunguleta::write_header(1, 4, 1000, &mut table).unwrap();
    let task = shunguleta::Task::new(1, 2, 0b11);
    let figures = [[1200, 900, 1000], [1200, 200, 1000]];
    let figures = figures.map(|[work, span, period]| shunguleta::Figures::new(work, span, period));
    shunguleta::write_task(1000, 0, task, &figures, &mut table[512..]).unwrap();
    assert_eq!(plan_table(&table), Ok(vec![(1, 2)]));
    assert_eq!(plan_table(&[]).unwrap_err().number, 1);
}

//! The planner as C and C++ see it: the header by itself, and programs against the library.

use std::fmt::Write;
use std::fs;
use std::path::{Path, PathBuf};
use std::process::{Command, Output};

use shunguleta::{Reason, BLOCK, MOST_CELLS, MOST_CORES, MOST_MODES, MOST_TASKS};

const C: [&str; 2] = ["cc", "-std=c99"];
const CPP: [&str; 2] = ["c++", "-std=c++11"];
/// Nothing that a compiler would remark on.
const STRICT: [&str; 4] = ["-pedantic", "-Wall", "-Wextra", "-Werror"];

/// Every call with NULL of length 0 for each of its buffers.
const NULLS: &str = r#"
#include "shunguleta.h"

int main(void)
{
    struct shunguleta_reply replies[9];
    int wrong = 0;
    int i;
    replies[0] = shunguleta_check(NULL, 0);
    replies[1] = shunguleta_ask_task(NULL, 0, 0);
    replies[2] = shunguleta_ask_mode(NULL, 0, 0, 0);
    replies[3] = shunguleta_ask_choice(NULL, 0, 0, 0);
    replies[4] = shunguleta_portion(NULL, 0, NULL, 0, 0, 1);
    replies[5] = shunguleta_take(NULL, 0, NULL, 0, 0, NULL, 0);
    replies[6] = shunguleta_plan_whole(NULL, 0, NULL, 0, NULL, 0);
    replies[7] = shunguleta_write_header(1, 1, 1, NULL, 0);
    replies[8] = shunguleta_write_task(1, 0, 1, 1, 1, NULL, 0, NULL, 0);
    for (i = 0; i < 7; i++)
        wrong |= replies[i].number != SHUNGULETA_LENGTH;
    wrong |= replies[7].number != SHUNGULETA_ROOM;
    wrong |= replies[8].number != SHUNGULETA_SHAPE;
    return wrong;
}
"#;

/// The loop of portions with a workspace twice as long as the table needs. It prints each new
/// progress, what the rest of the workspace holds, the plan, and the cores of each mode.
const PORTIONS: &str = r#"
#include <stdio.h>

#include "shunguleta.h"

enum { TASKS = 1, CORES = 4, COMMON_PERIOD = 1000, CELLS = SHUNGULETA_CELLS(TASKS, CORES) };

static int refused(struct shunguleta_reply reply)
{
    if (reply.number != 0)
        printf("refused %u at %u\n", (unsigned)reply.number, (unsigned)reply.at);
    return reply.number != 0;
}

int main(void)
{
    static const uint32_t figures[] = {1200, 900, 1000, 1200, 200, 1000};
    static uint8_t table[(TASKS + 1) * SHUNGULETA_BLOCK];
    static uint64_t cells[2 * CELLS];
    uint8_t modes[SHUNGULETA_MOST_TASKS];
    struct shunguleta_reply header, reply;
    uint32_t progress = 0;
    int portions = 0;
    int i;

    for (i = 0; i < 2 * CELLS; i++)
        cells[i] = 77;
    if (refused(shunguleta_write_header(TASKS, CORES, COMMON_PERIOD, table, SHUNGULETA_BLOCK)) ||
        refused(shunguleta_write_task(COMMON_PERIOD, 0, 1, 2, 3, figures, 6, table + SHUNGULETA_BLOCK, SHUNGULETA_BLOCK)))
        return 1;
    header = shunguleta_check(table, sizeof table);
    if (refused(header))
        return 1;
    /* Without a limit, a loop that doesn't end would hang. */
    while (progress < SHUNGULETA_CELLS(header.values[0], header.values[1]) && portions < 9) {
        reply = shunguleta_portion(table, sizeof table, cells, 2 * CELLS, progress, 4);
        if (refused(reply))
            return 1;
        progress = (uint32_t)reply.values[0];
        portions++;
        printf("%u ", (unsigned)progress);
    }
    for (i = CELLS; i < 2 * CELLS; i++)
        if (cells[i] != 77)
            return 2;
    reply = shunguleta_take(table, sizeof table, cells, 2 * CELLS, progress, modes, sizeof modes);
    if (refused(reply))
        return 1;
    printf("plan %u cost %u\n", (unsigned)reply.values[0], (unsigned)reply.values[1]);
    for (i = 0; i < TASKS; i++) {
        reply = shunguleta_ask_choice(table, sizeof table, (uint32_t)i, modes[i]);
        if (refused(reply))
            return 1;
        printf("%d %d %u %u\n", i, modes[i], (unsigned)reply.values[0], (unsigned)reply.values[1]);
    }
    return 0;
}
"#;

/// What the header says of sizes, and its version.
const SIZES: &str = r#"
#include <stdio.h>

#include "shunguleta.h"

int main(void)
{
    printf("%u %u %u %u %u %d.%d.%d\n", (unsigned)SHUNGULETA_BLOCK, (unsigned)SHUNGULETA_MOST_TASKS, (unsigned)SHUNGULETA_MOST_CORES,
           (unsigned)SHUNGULETA_MOST_MODES, (unsigned)SHUNGULETA_MOST_CELLS, SHUNGULETA_VERSION / 10000, SHUNGULETA_VERSION / 100 % 100,
           SHUNGULETA_VERSION % 100);
    return SHUNGULETA_MOST_CELLS != SHUNGULETA_CELLS(32, 64) || SHUNGULETA_CELLS(1 + 1, 2 + 2) != 15;
}
"#;

fn root() -> PathBuf {
    Path::new(env!("CARGO_MANIFEST_DIR")).join("../..")
}

fn header() -> String {
    fs::read_to_string(root().join("include/shunguleta.h")).unwrap()
}

/// A file for this test, which cargo keeps among its own.
fn file(name: &str) -> PathBuf {
    Path::new(env!("CARGO_TARGET_TMPDIR")).join(name)
}

fn run(command: &mut Command) -> Output {
    match command.output() {
        Ok(output) => output,
        Err(error) => panic!("{command:?} doesn't run: {error}"),
    }
}

fn text(bytes: &[u8]) -> String {
    String::from_utf8_lossy(bytes).into_owned()
}

/// Compiles with the repository's header, and fails with what the compiler says.
fn compile(compiler: [&str; 2], words: &[&Path]) {
    let [name, edition] = compiler;
    let mut command = Command::new(name);
    command.arg(edition).args(STRICT).arg("-I").arg(root().join("include")).args(words);
    let output = run(&mut command);
    assert!(output.status.success(), "{command:?}:\n{}", text(&output.stderr));
}

/// Compiles a program as C and as C++ against the library, and runs it both times; fails if it
/// does, or if it doesn't print just these lines.
fn prints(name: &str, source: &str, lines: &str) {
    for (compiler, ending) in [(C, "c"), (CPP, "cpp")] {
        let path = file(&format!("{name}.{ending}"));
        fs::write(&path, source).unwrap();
        let program = file(&format!("{name}-from-{ending}"));
        let library = Path::new(env!("SHUNGULETA_LIBRARY"));
        compile(compiler, &[&path, library, Path::new("-o"), &program]);
        let output = run(&mut Command::new(program));
        assert!(output.status.success(), "{name}.{ending}: {}", output.status);
        assert_eq!(text(&output.stdout), lines, "{name}.{ending}");
    }
}

#[test]
fn the_header_stands_by_itself() {
    for (compiler, name) in [(C, "header.c"), (CPP, "header.cpp")] {
        let source = file(name);
        fs::write(&source, "#include \"shunguleta.h\"\n#include \"shunguleta.h\"\n").unwrap();
        compile(compiler, &[Path::new("-fsyntax-only"), &source]);
    }
}

#[test]
fn the_example_prints_the_plan_of_the_sample() {
    let example = fs::read_to_string(root().join("examples/plan.c")).unwrap();
    prints("plan", &example, "plan 4 of 4 cost 2469600000\n0 0 2\n1 1 2\n");
}

#[test]
fn portions_end_with_a_workspace_twice_as_long() {
    prints("portions", PORTIONS, "4 8 10 plan 2 cost 0\n0 1 1 2\n");
}

#[test]
fn the_headers_sizes_and_version_are_those_of_the_package() {
    let sizes = format!("{BLOCK} {MOST_TASKS} {MOST_CORES} {MOST_MODES} {MOST_CELLS}");
    prints("sizes", SIZES, &format!("{sizes} {}\n", env!("CARGO_PKG_VERSION")));
}

/// A reason's name as the header has it.
fn name_in_c(reason: Reason) -> String {
    let mut name = String::from("SHUNGULETA");
    for letter in format!("{reason:?}").chars() {
        if letter.is_uppercase() {
            name.push('_');
        }
        name.push(letter.to_ascii_uppercase());
    }
    name
}

#[test]
fn the_headers_refusals_are_the_packages_reasons() {
    let header = header();
    let (_, rest) = header.split_once("enum shunguleta_refusal {").unwrap();
    let (listed, _) = rest.split_once("};").unwrap();
    // Commas, and how the comments are lined up, make no difference.
    let plain = |text: &str| text.split_whitespace().collect::<Vec<_>>().join(" ");
    let listed = plain(&listed.replace(", ", " ").replace("*/", "*/ "));
    let mut expected = String::new();
    for reason in (1..=u8::MAX).filter_map(Reason::of) {
        let (name, number) = (name_in_c(reason), reason.number());
        write!(expected, "{name} = {number} /* {reason} */ ").unwrap();
    }
    assert_eq!(listed, plain(&expected.replace(", ", " ")));
}

/// Some of it is the C library's, in memcpy and memset, so a few bytes make no difference.
#[test]
fn each_call_takes_the_stack_that_the_header_says() {
    let program = file("stack");
    let library = Path::new(env!("SHUNGULETA_LIBRARY"));
    let source = Path::new(env!("CARGO_MANIFEST_DIR")).join("tests/stack.c");
    compile(C, &[&source, library, Path::new("-Wl,-z,now"), Path::new("-o"), &program]);
    let output = run(&mut Command::new(program));
    assert!(output.status.success(), "{}", output.status);
    let (header, measured) = (header(), text(&output.stdout));
    println!("{measured}");
    assert_eq!(measured.lines().count(), 9);
    for line in measured.lines() {
        let (name, bytes) = line.split_once(' ').unwrap();
        let said = header.lines().filter_map(|line| line.strip_prefix(" *   ")?.strip_prefix(name));
        let said: Vec<u32> = said.filter_map(|rest| rest.trim().parse().ok()).collect();
        let bytes: u32 = bytes.parse().unwrap();
        let right = matches!(said[..], [most] if bytes.abs_diff(most) <= 64);
        assert!(right, "{name} takes {bytes} bytes, and {said:?} is said");
    }
}

/// A count as the header writes it.
fn with_commas(count: u64) -> String {
    let digits = count.to_string();
    let groups: Vec<&str> =
        digits.as_bytes().rchunks(3).rev().map(|group| str::from_utf8(group).unwrap()).collect();
    groups.join(",")
}

#[test]
fn the_library_is_as_long_as_the_header_says() {
    let length = with_commas(fs::metadata(env!("SHUNGULETA_LIBRARY")).unwrap().len());
    assert!(header().contains(&format!("It is {length} bytes long")), "{length} bytes");
}

/// No data that could be kept, and of other libraries memcpy and memset alone.
#[test]
fn the_library_keeps_nothing_and_needs_little() {
    let output = run(Command::new("nm").arg("-P").arg(env!("SHUNGULETA_LIBRARY")));
    assert!(output.status.success(), "{}", output.status);
    let symbols = text(&output.stdout);
    let kinds = symbols.lines().filter_map(|line| {
        let mut words = line.split_whitespace();
        Some((words.next()?, words.next()?))
    });
    let (mut calls, mut needed) = (0, Vec::new());
    for (name, kind) in kinds {
        match kind {
            "T" => calls += 1,
            "U" => needed.push(name),
            "t" | "r" => {}
            _ => panic!("{name} is of kind {kind}"),
        }
    }
    assert_eq!((calls, &needed[..]), (9, &["memcpy", "memset"][..]));
}

/// The program in the README, from its first line to its last bracket.
#[test]
fn the_readmes_lines_in_c_compile() {
    let readme = fs::read_to_string(root().join("README.md")).unwrap();
    let (_, rest) = readme.split_once("    #include \"shunguleta.h\"\n").unwrap();
    let (lines, _) = rest.split_once("\n    }\n").unwrap();
    let source = file("readme.c");
    fs::write(&source, format!("#include \"shunguleta.h\"\n{lines}\n}}\n")).unwrap();
    compile(C, &[Path::new("-fsyntax-only"), &source]);
}

#[test]
fn null_of_length_0_is_an_empty_buffer() {
    prints("nulls", NULLS, "");
}

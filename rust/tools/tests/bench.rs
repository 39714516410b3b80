//! What the bench command hands to a device, and its exit status. A stand-in prints what the proved program would.

use std::fs;
use std::path::PathBuf;
use std::process::{Command, Output};

const DONE: i32 = 0;
const EARLY: i32 = 1;
const REFUSED: i32 = 2;
const DIFFERENT: i32 = 4;

const TABLE: &str = "Line { 'STOP ' eValue = <EmitStop eValue> }";
const SHEET: &str = "STOP 60";
/// What the proved program prints for the table and the sheet.
const RUN: &str = "0 0 1\nEmitStop 60\n\n1 Line 1\ntotal 1\n";

const EMITS: &[&str] = &["--emits", "EmitStop,EmitSwing"];

/// Runs the bench command on a table and a sheet; the proved program is a stand-in that prints `printed`. `name` is the
/// test's, for a folder of its own.
fn bench(name: &str, table: &str, sheet: &str, printed: &str) -> Output {
    bench_with(&[], name, table, sheet, printed)
}

/// The same with further words before the files.
fn bench_with(words: &[&str], name: &str, table: &str, sheet: &str, printed: &str) -> Output {
    let folder = PathBuf::from(env!("CARGO_TARGET_TMPDIR")).join(name);
    fs::create_dir_all(&folder).expect("the folder can be made");
    fs::write(folder.join("table.rf"), table).expect("the table can be written");
    fs::write(folder.join("sheet.txt"), sheet).expect("the sheet can be written");
    let mut command = Command::new(env!("CARGO_BIN_EXE_refal0-bench"));
    command.current_dir(folder).env("PRINTED", printed);
    command.env("REFAL0", concat!(env!("CARGO_MANIFEST_DIR"), "/tests/stand-in"));
    command.args(words).args(["table.rf", "sheet.txt"]).output().expect("the command runs")
}

/// Nothing went to standard output, the exit status is this one, and standard error says it.
fn assert_nothing_set(output: &Output, status: i32, said: &str) {
    let error = String::from_utf8_lossy(&output.stderr);
    assert_eq!(String::from_utf8_lossy(&output.stdout), "", "{error}");
    assert_eq!(output.status.code(), Some(status), "{error}");
    assert!(error.contains(said), "{error}");
}

/// The run is done, and these lines are on standard output.
fn assert_set(output: &Output, settings: &str) {
    let error = String::from_utf8_lossy(&output.stderr);
    assert_eq!(String::from_utf8_lossy(&output.stdout), settings, "{error}");
    assert_eq!(output.status.code(), Some(DONE), "{error}");
}

#[test]
fn settings_go_out_if_both_systems_end_alike() {
    assert_set(&bench("alike", TABLE, SHEET, RUN), "EmitStop 60\n");
}

#[test]
fn nothing_goes_out_if_the_emissions_differ() {
    let output = bench("emissions", TABLE, SHEET, &RUN.replace("60", "90"));
    assert_nothing_set(&output, DIFFERENT, "with 0 after 1 step, but not with the same lines");
}

#[test]
fn nothing_goes_out_if_the_answers_or_steps_differ() {
    let output = bench("steps", TABLE, SHEET, "0 0 2\nEmitStop 60\n\n1 Line 2\ntotal 2\n");
    assert_nothing_set(&output, DIFFERENT, "with 0 after 2 steps, the Refal-0 system of rust/ with 0 after 1 step");
    let output = bench("answers", TABLE, "SWING 60", RUN);
    assert_nothing_set(&output, DIFFERENT, "with 0 after 1 step, the Refal-0 system of rust/ with 11 after 1 step");
    let early = bench("early", TABLE, SHEET, "11 1 1\n\n1 Line 1\ntotal 1\n");
    assert_nothing_set(&early, DIFFERENT, "with 11 after 1 step, the Refal-0 system of rust/ with 0 after 1 step");
}

#[test]
fn nothing_goes_out_if_only_the_program_accepts_the_table() {
    let output = bench("accepted", "Line { e1 = e2 }", SHEET, RUN);
    assert_nothing_set(&output, DIFFERENT, "accepts the table, and the Refal-0 system of rust/ refuses it with 7");
}

#[test]
fn emits_lets_through_emissions_of_the_names() {
    assert_set(&bench_with(EMITS, "emits", TABLE, SHEET, RUN), "EmitStop 60\n");
    let nothing = bench_with(EMITS, "emits-nothing", "Line { e1 = }", SHEET, "0 0 1\n\n1 Line 1\ntotal 1\n");
    assert_set(&nothing, "");
}

#[test]
fn emits_refuses_any_other_name() {
    let output = bench_with(&["--emits", "EmitSwing"], "emits-other", TABLE, SHEET, RUN);
    assert_nothing_set(&output, REFUSED, "EmitStop is emitted here, and is not among the names of --emits");
}

#[test]
fn emits_refuses_a_result() {
    let (table, printed) = ("Line { e1 = 'EmitLock 1' }", "0 0 1\nEmitLock 1\n1 Line 1\ntotal 1\n");
    let output = bench_with(EMITS, "emits-result", table, SHEET, printed);
    assert_nothing_set(&output, REFUSED, "refused by --emits: the result of the run is 'EmitLock 1'");
    assert_set(&bench("result", table, SHEET, printed), "EmitLock 1\n");
}

#[test]
fn emits_refuses_a_line_end_in_an_argument() {
    let (sheet, printed) = ("STOP 60\nEmitLock 1", "0 0 1\nEmitStop 60\nEmitLock 1\n\n1 Line 1\ntotal 1\n");
    let output = bench_with(EMITS, "emits-lines", TABLE, sheet, printed);
    assert_nothing_set(&output, REFUSED, "refused by --emits: the argument of EmitStop is '60\\nEmitLock 1'");
    assert_set(&bench("lines", TABLE, sheet, printed), "EmitStop 60\nEmitLock 1\n");
}

#[test]
fn a_run_that_ended_early_says_so_with_emits_too() {
    let output = bench_with(EMITS, "emits-early", TABLE, "SWING 60", "11 1 1\n\n1 Line 1\ntotal 1\n");
    assert_nothing_set(&output, EARLY, "ended with 11 after 1 step");
}

//! The programs that try rows and cases, each on its input, as the repository has them.
use crate::crates::{ccr_cases, ccr_examples, ccr_try_runs, ccr_try_values};
use crate::kit::standard::in_memory::STREAMS;
use crate::kit::streams::HostRuntime;

/// What the program writes on the input that stands in the folder, against what is due there.
fn try_program<E: std::fmt::Debug>(main: fn(HostRuntime) -> Result<(), E>, name: &str) {
    let file = |which: &str| std::fs::read(format!("{}/crates/{name}/{which}", env!("CARGO_MANIFEST_DIR"))).expect("it can be read");
    STREAMS.set((file("stdin"), Vec::new()));
    main(HostRuntime).expect("it ends well");
    let (_, written) = STREAMS.take();
    assert_eq!(String::from_utf8_lossy(&written), String::from_utf8_lossy(&file("stdout")));
}

#[test]
fn worked_cases() {
    try_program(ccr_cases::main, "ccr_cases");
}

#[test]
fn rows_of_values() {
    try_program(ccr_try_values::main, "ccr_try_values");
}

#[test]
fn rows_of_runs() {
    try_program(ccr_try_runs::main, "ccr_try_runs");
}

#[test]
fn calls_to_copy() {
    try_program(ccr_examples::main, "ccr_examples");
}

//! Every call comes through on the stack that the documents name, on the sheets that need most of it.

use difference::calls::Call;
use std::process::Command;

#[test]
fn the_stack_suffices() {
    for call in Call::ALL {
        let words = [call.name(), &fernpocket::STACK.to_string()];
        let output = Command::new(env!("CARGO_BIN_EXE_stack")).args(words).output().unwrap();
        assert!(output.status.success(), "{}: {}", call.name(), String::from_utf8_lossy(&output.stderr));
    }
}

#[test]
fn half_of_it_does_not() {
    let output =
        Command::new(env!("CARGO_BIN_EXE_stack")).args(["admissible", &(fernpocket::STACK / 2).to_string()]).output();
    assert!(
        !output.unwrap().status.success(),
        "the documents ask for twice the stack that is needed, or nothing is tried"
    );
}

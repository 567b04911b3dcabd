//! How much stack the library's calls use. `tests/c/stack.c` sees it, run by
//! `tests/x86`: so it is the library as it was proved and compiled for x86-64, in the
//! emulator where the machine is another.

use std::fs;
use std::path::PathBuf;
use std::process::Command;

use fervolatro_testing::in_repository;

use super::books::Asked;

/// Prints what each book's calls use, or the largest books' if that is more.
pub fn print<'a>(books: impl Iterator<Item = &'a Asked>) {
    println!("\nstack of a call, in bytes; tests/c/stack.c has the limits");
    let outer = in_repository("target/outer");
    fs::create_dir_all(&outer).expect("the folder can be made");
    let program = outer.join("stack");
    run("cc", &[program.clone(), in_repository("tests/c/stack.c")]);
    for asked in books {
        let path = outer.join("stack.book");
        fs::write(&path, &asked.bytes).expect("the book can be written");
        let account = PathBuf::from(asked.account.to_string());
        let mut words = vec![program.clone(), path, account];
        if let Some(locked) = asked.locked() {
            let path = outer.join("stack.locked");
            fs::write(&path, locked).expect("the locked book can be written");
            words.push(path);
        }
        print!("{:<24} {}", asked.name, run("run", &words));
    }
}

/// What `tests/x86` says, which has to end well.
fn run(verb: &str, words: &[PathBuf]) -> String {
    let mut command = Command::new(in_repository("tests/x86"));
    let output = command.arg(verb).args(words).output();
    let output = output.expect("tests/x86 can be run");
    let said = String::from_utf8_lossy(&output.stdout).into_owned();
    let complaint = String::from_utf8_lossy(&output.stderr);
    assert!(
        output.status.success(),
        "tests/x86 {verb}: {said}{complaint}"
    );
    said
}

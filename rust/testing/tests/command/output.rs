//! How a run ends, where its output goes, and what it leaves behind.

use std::fs::File;
use std::io::Write as _;
use std::process::Command;
use std::thread;
use std::time::Duration;

use fervolatro_testing::book::Book;
use fervolatro_testing::harness::report;
use fervolatro_testing::requests::generate::book_of_longest_statement;
use fervolatro_testing::requests::random::Random;
use fervolatro_testing::requests::worked::{contract, empty_book, worked_book};

use crate::run::{
    ask, bash, end, is_in_readme, listing, repository, run, run_on, start, worked_file, Folder,
};

#[test]
fn a_statement_exits_with_0() {
    let folder = Folder::new();
    run(&mut ask("7", worked_file())).must_list_worked();
    let mut no_lines = worked_book();
    no_lines.constraints.clear();
    no_lines.units.clear();
    for book in [worked_book(), no_lines] {
        let book = book.encode();
        let file = folder.write("a book", &book);
        for account in [7, 9] {
            let ended = run(&mut ask(account.to_string(), &file));
            ended.must_answer(account, &book);
            assert_eq!(ended.status, Some(0), "{ended}");
        }
    }
}

/// Of 2,152 lines, more than a pipe holds.
#[test]
fn the_longest_statement_is_printed_whole() {
    let (book, account) = book_of_longest_statement(&mut Random::new(report::seed()));
    let book = book.encode();
    let ended = run_on(&mut ask(account.to_string(), "-"), &book);
    ended.must_answer(account, &book);
    assert_eq!(ended.stdout.lines().count(), 2_153);
}

/// README's first command, and what it prints.
#[test]
fn the_readme_shows_what_is_printed() {
    let asked = "bin/listing 7 books/worked.book";
    let ended = run(Command::new("bash")
        .args(["-c", asked])
        .current_dir(repository()));
    ended.must_list_worked();
    assert!(
        is_in_readme(asked) && is_in_readme(&ended.stdout),
        "{ended}"
    );
}

#[test]
fn a_refusal_exits_with_1() {
    let folder = Folder::new();
    let spoilt: [fn(&mut Book); 6] = [
        |book| book.header.mark = *b"RCS",
        |book| book.header.run = 100,
        |book| book.constraints[0].mode = 3,
        |book| book.units.swap(0, 1),
        |book| book.regions[0].ace = 0,
        |book| book.energies.clear(),
    ];
    let mut books: Vec<Vec<u8>> = spoilt.map(|spoil| spoilt_by(spoil)).to_vec();
    books.push(Vec::new());
    books.push(empty_book().encode());
    books.push(worked_book().encode()[..271].to_vec());
    for book in books {
        let file = folder.write("a book", &book);
        let ended = run(&mut ask("7", file));
        ended.must_answer(7, &book);
        assert!(ended.stdout.starts_with("refused "), "{ended}");
    }
}

/// It lends no locked book, which a test payment wants: here the one at 272, behind the
/// records of the worked book.
#[test]
fn a_test_payment_is_refused() {
    let folder = Folder::new();
    let book = spoilt_by(|book| {
        book.contracts = vec![contract(1, 2, 0, [1_000_000, 0, 0, 0, 0])];
    });
    let file = folder.write("a book", &book);
    for account in ["7", "8"] {
        run(&mut ask(account, &file)).must_print("refused 17 at 272\n", 1);
    }
}

fn spoilt_by(spoil: fn(&mut Book)) -> Vec<u8> {
    let mut book = worked_book();
    spoil(&mut book);
    book.encode()
}

/// Of a statement, of a refusal and of the usage.
#[test]
fn output_that_cannot_be_written_is_an_error() {
    let worked = worked_file();
    let asked = [
        ask("7", &worked),
        ask("8", &worked),
        ask("7", "/dev/null"),
        listing(&["--help"]),
    ];
    for mut command in asked {
        let full = File::options().write(true).open("/dev/full");
        let ended = run(command.stdout(full.expect("there is a full device")));
        ended.must_fail("can't write to the standard output: No space left on device");
    }
    for arguments in ["7 \"$1\"", "8 \"$1\"", "--help", "010 \"$1\"", ""] {
        let script = format!("\"$0\" {arguments} >&-");
        let ended = run(&mut bash(&script, &[&worked]));
        ended.must_fail("can't write to the standard output: it is closed");
    }
    let read_only = File::open("/dev/null").expect("it can be read");
    let ended = run(ask("7", &worked).stdout(read_only));
    ended.must_fail("can't write to the standard output: Bad file descriptor");
}

/// Nobody is left to read it: the reader went before the book came.
#[test]
fn a_closed_pipe_is_an_error() {
    for ignored in ["", "trap '' PIPE; "] {
        let mut command = bash(&format!("{ignored}exec \"$0\" 7 -"), &[""; 0]);
        let mut child = start(&mut command);
        drop(child.stdout.take());
        let mut stdin = child.stdin.take().expect("it was piped");
        stdin
            .write_all(&worked_book().encode())
            .expect("it is read");
        drop(stdin);
        end(&command, child).must_fail("can't write to the standard output: Broken pipe");
    }
}

/// The status tells without a standard error too.
#[test]
fn a_closed_standard_error_changes_no_status() {
    let worked = [worked_file()];
    for (arguments, status) in [
        ("7 \"$1\"", 0),
        ("8 \"$1\"", 1),
        ("010 \"$1\"", 2),
        ("7 \"$1.no\"", 2),
        ("7", 2),
    ] {
        let ended = run(&mut bash(&format!("\"$0\" {arguments} 2>&-"), &worked));
        assert_eq!(ended.status, Some(status), "{ended}");
    }
}

/// Not in the folder for temporary files, nor in that it was started in; whether it
/// ends well, or wrongly, or is ended while it reads.
#[test]
fn nothing_is_left_behind() {
    let folder = Folder::new();
    let here = |mut command: Command| {
        command
            .current_dir(&folder.path)
            .env("TMPDIR", &folder.path);
        command
    };
    run(&mut here(ask("7", worked_file()))).must_list_worked();
    run(&mut here(ask("8", worked_file()))).must_print("refused 11 at 0\n", 1);
    run(&mut here(ask("7", "/proc/self/mem"))).must_fail("Input/output error");
    run(&mut here(ask("7", "missing"))).must_fail("No such file");
    run(&mut here(listing(&["7"]))).must_fail_saying("usage");
    for signal in ["-TERM", "-KILL"] {
        let mut command = here(ask("7", "-"));
        let mut child = start(&mut command);
        thread::sleep(Duration::from_millis(300));
        let number = child.id().to_string();
        let kill = Command::new("kill").args([signal, &number]).status();
        assert!(kill.expect("there is a kill").success());
        drop(child.stdin.take());
        let ended = end(&command, child);
        assert!(ended.stdout.is_empty(), "{signal}: {ended}");
        assert_eq!(ended.status, None, "{signal}: {ended}");
    }
    assert_eq!(folder.names(), [""; 0]);
}

//! What is an account, how many arguments there are, and that no argument is anything
//! but a number or a name.

use std::ffi::OsStr;
use std::net::TcpListener;
use std::os::unix::ffi::OsStrExt as _;
use std::process::{Command, Stdio};

use fervolatro_testing::book::Book;
use fervolatro_testing::requests::worked::worked_book;

use crate::run::{ask, command_file, listing, run, worked_file, Folder};

/// Wrong accounts, and what is said of them.
const WRONG: [(&str, &[&str]); 4] = [
    ("is empty", &[""]),
    (
        "is not made of the digits 0 to 9 alone",
        &[
            "-1",
            "-7",
            "-0",
            "+7",
            " 7",
            "7 ",
            "7\n",
            "\n7",
            "7\n9",
            "7\t",
            "7\r",
            "0x7",
            "0X7",
            "x7",
            "7f",
            "0b111",
            "0o7",
            "8#7",
            "16#7",
            "7.0",
            "7.",
            "7,000",
            "7_000",
            "1e3",
            "7e0",
            "seven",
            "-",
            "--",
            "--help",
            "-h",
            "*",
            "?",
            "\u{0667}",
            "\u{096D}",
            "\u{FF17}",
            "7\u{00B2}",
            "\u{2167}",
            "\u{00A0}7",
        ],
    ),
    (
        "has a leading zero",
        &["00", "07", "007", "010", "08", "0000000007", "04294967295"],
    ),
    (
        "is too large",
        &[
            "4294967296",
            "4294967303",
            "5000000000",
            "9999999999",
            "10000000007",
            "9223372036854775807",
            "9223372036854775808",
            "18446744073709551615",
            "18446744073709551623",
            "340282366920938463463374607431768211463",
        ],
    ),
];

#[test]
fn any_other_account_is_an_error() {
    for (words, accounts) in WRONG {
        for account in accounts {
            for locale in ["C", "C.UTF-8"] {
                let ended = run(ask(account, worked_file()).env("LC_ALL", locale));
                ended.must_fail(words);
                ended.must_fail("wanted is a whole number from 0 to 4294967295");
            }
        }
    }
    let long = "7".repeat(100_000);
    run(&mut ask(&long, worked_file()))
        .must_fail("'7777777777777777777777777777777777777777'.. is too large");
    for bytes in [
        b"7\xFF".as_slice(),
        b"\xFF",
        b"\xC0\xB7",
        b"\x1B[7m",
        b"\x7F7",
    ] {
        let account = OsStr::from_bytes(bytes);
        run(&mut ask(account, worked_file())).must_fail("is not made of the digits");
    }
}

/// The account is looked at first: no word is lost about the book, which is not read.
#[test]
fn a_wrong_account_is_said_whatever_the_book() {
    for file in ["no such file", "/", "-", "", "/dev/zero"] {
        run(&mut ask("010", file)).must_fail("has a leading zero");
    }
}

#[test]
fn every_account_is_taken_as_it_is_written() {
    let folder = Folder::new();
    let ends = [1, 7, 10, 255, 256, 65_535, 65_536, 16_777_215, 16_777_216];
    let bytes = [7 << 8, 7 << 16, 7 << 24, 0x0102_0304, 0x8000_0000];
    let large = [999_999_999, 2_147_483_647, 4_294_967_294, u32::MAX];
    for account in [ends.as_slice(), &bytes, &large].concat() {
        let book = book_of(account).encode();
        let file = folder.write("a book", &book);
        let ended = run(&mut ask(account.to_string(), &file));
        ended.must_answer(account, &book);
        assert!(
            ended.stdout.starts_with(&format!("account {account} ")),
            "{ended}"
        );
    }
    for account in [0, 8] {
        let ended = run(&mut ask(account.to_string(), worked_file()));
        ended.must_print("refused 11 at 0\n", 1);
    }
}

/// The worked book, with this account in the place of 7.
fn book_of(account: u32) -> Book {
    let mut book = worked_book();
    let units = book.units.iter_mut().map(|row| &mut row.account);
    let energies = book.energies.iter_mut().map(|row| &mut row.account);
    for of in units.chain(energies).filter(|of| **of == 7) {
        *of = account;
    }
    book.energies.sort_by_key(|row| row.account);
    book
}

#[test]
fn missing_and_spare_arguments_are_errors_with_usage() {
    let book = worked_file();
    let book = book.to_str().expect("its name is UTF-8");
    let wrong: [&[&str]; 12] = [
        &[],
        &[""],
        &["7"],
        &["-"],
        &["--"],
        &["--version"],
        &["--helpful"],
        &[book],
        &["7", book, ""],
        &["7", book, book],
        &["--help", "7", book],
        &["--", "7", book],
    ];
    for arguments in wrong {
        let ended = run(&mut listing(arguments));
        let came = format!(
            "wanted are two arguments, an account and a file, and {} came",
            arguments.len()
        );
        ended.must_fail_saying(&came);
        ended.must_fail_saying("\nusage: bin/listing ACCOUNT FILE\n");
    }
}

#[test]
fn help_prints_the_usage() {
    let printed = ["--help", "-h"].map(|word| {
        let ended = run(&mut listing(&[word]));
        assert!(
            ended.status == Some(0) && ended.stderr.is_empty(),
            "{ended}"
        );
        ended.stdout
    });
    assert_eq!(printed[0], printed[1]);
    assert!(
        printed[0].starts_with("usage: bin/listing ACCOUNT FILE\n"),
        "{}",
        printed[0]
    );
    assert!(
        printed[0].ends_with('\n') && !printed[0].ends_with("\n\n"),
        "{}",
        printed[0]
    );
    for words in [
        "0 to 4294967295",
        "standard input",
        "exit status: 0",
        "five minutes",
    ] {
        assert!(
            printed[0].contains(words),
            "{words:?} is not in\n{}",
            printed[0]
        );
    }
}

/// What a shell could take for more than a word, by itself or in arithmetic.
const COMMANDS: [&str; 24] = [
    "$(touch canary)",
    "`touch canary`",
    "a[$(touch canary)]",
    "a[`touch canary`]",
    "a[$(touch canary)0]=7",
    "x=a[$(touch canary)]",
    "account[$(touch canary)]",
    "BASH_VERSINFO[$(touch canary)]",
    "7;touch canary",
    "7 && touch canary",
    "7|touch canary",
    "7\ntouch canary",
    ">canary",
    "7 >canary",
    "'$(touch canary)'",
    "\"$(touch canary)\"",
    "${x:=$(touch canary)}",
    "\\$(touch canary)",
    "<(touch canary)",
    "$((a[$(touch canary)]))",
    "!touch canary",
    "%s%n%d",
    "@(7)",
    "--rcfile=canary",
];

/// Names and sums that arithmetic would give a value to.
const SUMS: [&str; 14] = [
    "account",
    "RANDOM",
    "UID",
    "greatest",
    "$$",
    "$#",
    "3+4",
    "14/2",
    "(7)",
    "~-8",
    "account=7",
    "7,7",
    "!0",
    "++account",
];

#[test]
fn nothing_of_an_argument_is_evaluated() {
    let folder = Folder::new();
    for word in COMMANDS.iter().chain(&SUMS) {
        let mut command = ask(word, worked_file());
        let ended = run(command.current_dir(&folder.path).env("account", "7"));
        ended.must_fail("is not made of the digits 0 to 9 alone");
        let ended = run(ask("7", word).current_dir(&folder.path));
        ended.must_fail("No such file or directory");
        let ended = run(listing(&[word]).current_dir(&folder.path));
        ended.must_fail_saying("and 1 came");
    }
    assert_eq!(folder.names(), [""; 0], "a command was run");
}

/// bash would make a connection of such a name, and wait for what comes.
#[test]
fn a_name_is_no_connection() {
    let listener = TcpListener::bind("127.0.0.1:0").expect("a port is free");
    let port = listener.local_addr().expect("it has one").port();
    for front in ["/dev/tcp", "/dev/udp"] {
        for host in ["127.0.0.1", "localhost"] {
            let mut command = Command::new("timeout");
            command.arg("20").arg(command_file()).arg("7");
            command.arg(format!("{front}/{host}/{port}"));
            run(command.stdin(Stdio::null())).must_fail("No such file or directory");
        }
    }
    listener.set_nonblocking(true).expect("it need not wait");
    assert!(listener.accept().is_err(), "a connection was made");
}

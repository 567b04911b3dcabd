//! Where a book can come from, and what is none.

use std::ffi::OsStr;
use std::fs::{self, File, Permissions};
use std::io::{Read as _, Seek as _, SeekFrom, Write as _};
use std::os::unix::ffi::OsStrExt as _;
use std::os::unix::fs::{symlink, PermissionsExt as _};
use std::os::unix::net::UnixListener;
use std::process::Command;
use std::thread;
use std::time::Duration;

use fervolatro_testing::requests::worked::{empty_book, worked_book};

use crate::run::{ask, bash, end, run, run_on, start, worked_file, Folder};

#[test]
fn a_missing_file_is_an_error() {
    let folder = Folder::new();
    folder.write("file", "");
    symlink("nowhere", folder.path.join("link")).expect("a link can be made");
    symlink("loop", folder.path.join("loop")).expect("a link can be made");
    let long = "x".repeat(300);
    let missing = [
        ("", "No such file or directory"),
        ("missing", "can't open 'missing': No such file or directory"),
        ("a folder/missing", "No such file or directory"),
        (
            "missing\nfile",
            "can't open $'missing\\nfile': No such file or directory",
        ),
        (
            "\u{1B}[2J",
            "can't open $'\\E[2J': No such file or directory",
        ),
        ("link", "No such file or directory"),
        ("loop", "Too many levels of symbolic links"),
        ("file/below", "Not a directory"),
        ("--help", "No such file or directory"),
        ("-h", "No such file or directory"),
        ("--", "No such file or directory"),
        ("7", "No such file or directory"),
        (&long, "File name too long"),
    ];
    for (name, words) in missing {
        run(ask("7", name).current_dir(&folder.path)).must_fail(words);
    }
    assert_eq!(folder.names().len(), 3, "{:?}", folder.names());
}

#[test]
fn a_folder_is_an_error() {
    let folder = Folder::new();
    fs::create_dir(folder.path.join("below")).expect("a folder can be made");
    symlink("below", folder.path.join("link")).expect("a link can be made");
    for name in [
        ".",
        "..",
        "/",
        "below",
        "below/",
        "./below/../below",
        "link",
        "/dev",
        "/proc/self/cwd",
    ] {
        run(ask("7", name).current_dir(&folder.path))
            .must_fail("is a folder, and a book is a file");
    }
    let below = File::open(&folder.path).expect("a folder can be opened");
    let ended = run(ask("7", "-").stdin(below));
    ended.must_fail("can't read the standard input: Is a directory");
}

/// Memory can be opened, and its first byte can't be read, by root neither.
#[test]
fn a_file_that_cannot_be_read_is_an_error() {
    let from_memory = || File::open("/proc/self/mem").expect("it can be opened");
    for name in ["/proc/self/mem", "//proc/self/mem", "/proc/thread-self/mem"] {
        run(&mut ask("7", name)).must_fail(&format!("can't read '{name}': Input/output error"));
    }
    let ended = run(ask("7", "-").stdin(from_memory()));
    ended.must_fail("can't read the standard input: Input/output error");
    run(ask("7", "/dev/fd/0").stdin(from_memory())).must_fail("can't");
    run(&mut bash("\"$0\" 7 - <&-", &[""; 0])).must_fail("the standard input is closed");
    let folder = Folder::new();
    let socket = folder.path.join("socket");
    // A path of more than 107 bytes is no socket's.
    if let Ok(_listener) = UnixListener::bind(&socket) {
        run(&mut ask("7", &socket)).must_fail("No such device or address");
    }
    let locked = folder.write_worked("locked");
    fs::set_permissions(&locked, Permissions::from_mode(0o000)).expect("it is our own");
    match File::open(&locked) {
        Ok(_) => run(&mut ask("7", &locked)).must_list_worked(), // root reads it all the same
        Err(_) => run(&mut ask("7", &locked)).must_fail("Permission denied"),
    }
}

/// The last 1,000 bytes before a gap in this test's own memory: they are read, and then
/// comes an error. Nothing of what the bytes would say is printed.
#[test]
fn an_error_in_the_middle_is_an_error() {
    let mut memory = File::open("/proc/self/mem").expect("it can be opened");
    memory
        .seek(SeekFrom::Start(gap_in_memory() - 1_000))
        .expect("it is a place in memory");
    let mut front = Vec::new();
    let copy = memory.try_clone().expect("it can be shared");
    assert!(copy.take(2_000).read_to_end(&mut front).is_err());
    assert_eq!(front.len(), 1_000, "the bytes before the gap are read");
    memory
        .seek(SeekFrom::Current(-1_000))
        .expect("it is a place in memory");
    let ended = run(ask("7", "-").stdin(memory));
    ended.must_fail("can't read the standard input: Input/output error");
}

/// The address behind the stack's highest byte. The stack grows downwards, so this end
/// of it stays while other tests run.
fn gap_in_memory() -> u64 {
    let maps = fs::read_to_string("/proc/self/maps").expect("it can be read");
    let ranges = maps.lines().filter_map(|line| line.split_once(' '));
    let mut stacks = ranges.filter(|(_, rest)| rest.ends_with("[stack]"));
    let (range, _) = stacks.next().expect("there is a stack");
    let (_, end) = range.split_once('-').expect("it has two ends");
    u64::from_str_radix(end, 16).expect("it is an address")
}

#[test]
fn the_standard_input_is_a_book() {
    let folder = Folder::new();
    let book = worked_book().encode();
    folder.write("-", empty_book().encode());
    for name in ["-", "/dev/stdin", "/dev/fd/0", "/proc/self/fd/0"] {
        let mut command = ask("7", name);
        command.current_dir(&folder.path);
        run_on(&mut command, &book).must_list_worked();
        let file = File::open(worked_file()).expect("it can be read");
        run(command.stdin(file)).must_list_worked();
        run_on(&mut command, &book[..100]).must_answer(7, &book[..100]);
        run_on(&mut command, b"").must_print("refused 1 at 0\n", 1);
    }
    // A file of that name is found in its folder.
    for name in ["./-", ".//-"] {
        let ended = run(ask("7", name).current_dir(&folder.path));
        ended.must_answer(7, &empty_book().encode());
    }
}

#[test]
fn pipes_are_books() {
    let folder = Folder::new();
    let fifo = folder.path.join("a pipe");
    let made = Command::new("mkfifo").arg("--").arg(&fifo).status();
    assert!(made.expect("there is a mkfifo").success());
    let writer = thread::spawn({
        let fifo = fifo.clone();
        move || fs::write(fifo, worked_book().encode()).expect("it is read")
    });
    run(&mut ask("7", &fifo)).must_list_worked();
    writer.join().expect("all was written");
    let book = [worked_file()];
    for script in [
        "\"$0\" 7 <(cat \"$1\")",
        "cat \"$1\" | \"$0\" 7 -",
        "\"$0\" 7 - <\"$1\"",
        "\"$0\" 7 /dev/fd/3 3<\"$1\"",
        "\"$0\" 7 /dev/fd/9 9<\"$1\"",
        "\"$0\" 7 <(sleep 0.2; head -c 50 \"$1\"; sleep 0.2; tail -c +51 \"$1\")",
        "\"$0\" 7 \"$1\" <&-",
    ] {
        run(&mut bash(script, &book)).must_list_worked();
    }
}

/// A byte at a time, with a pause now and then.
#[test]
fn a_slow_pipe_is_read_to_its_end() {
    let mut command = ask("7", "-");
    let mut child = start(&mut command);
    let mut stdin = child.stdin.take().expect("it was piped");
    for (place, byte) in worked_book().encode().into_iter().enumerate() {
        if place % 68 == 0 {
            thread::sleep(Duration::from_millis(50));
        }
        stdin.write_all(&[byte]).expect("it is read");
    }
    drop(stdin);
    end(&command, child).must_list_worked();
}

/// Only the first 65,532 bytes are read, so that input without an end has an answer.
#[test]
fn long_and_endless_input_is_answered() {
    run(&mut ask("7", "/dev/zero")).must_print("refused 2 at 0\n", 1);
    run(&mut bash("yes RCB | \"$0\" 7 -", &[""; 0])).must_print("refused 2 at 0\n", 1);
    let folder = Folder::new();
    for length in [65_531, 65_532, 65_533, 65_536, 65_537, 1_000_000] {
        let mut book = worked_book().encode();
        book.resize(length, 0);
        let file = folder.write("a long book", &book);
        run(&mut ask("7", &file)).must_answer(7, &book);
        run_on(&mut ask("7", "-"), &book).must_answer(7, &book);
    }
}

/// What a shell, or a command that is handed it, could take for something else.
const NAMES: [&[u8]; 38] = [
    b"a book",
    b" ",
    b" a  book ",
    b"it's",
    b"'",
    b"\"quoted\"",
    b"\\",
    b"back\\slash",
    b"\\x41",
    b"$(touch canary)",
    b"`touch canary`",
    b"${HOME}",
    b"$HOME",
    b"*",
    b"?",
    b"[a-z]",
    b"{a,b}",
    b"~",
    b"#",
    b"!",
    b"(",
    b"a;b",
    b"a&b",
    b"a|b",
    b"a<b",
    b">b",
    b"%s",
    b"a=b",
    b"-n",
    b"-rf",
    b"--",
    b"--help",
    b"two\nlines",
    b"ends\n",
    b"tab\t",
    b"\xC3\xBC\xE2\x82\xAC",
    b"\xFF\xFE",
    b"\x1B[31m",
];

#[test]
fn any_name_is_a_name() {
    let folder = Folder::new();
    for name in NAMES {
        let name = OsStr::from_bytes(name);
        let file = folder.write_worked(name);
        run(&mut ask("7", &file)).must_list_worked();
        run(ask("7", name).current_dir(&folder.path)).must_list_worked();
        fs::remove_file(file).expect("it is our own");
        let ended = run(ask("7", name).current_dir(&folder.path));
        ended.must_fail("No such file or directory");
    }
    assert_eq!(folder.names(), [""; 0], "something else was written");
}

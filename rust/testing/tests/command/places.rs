//! Where the command is found, and where it is run.

use std::fs;
use std::os::unix::fs::symlink;
use std::path::Path;
use std::process::{Command, Stdio};

use crate::run::{command_file, repository, run, worked_file, Ended, Folder};

/// Asks the command of this name, from this folder, for account 7 of the worked book.
fn asked(name: impl AsRef<Path>, from: &Path) -> Ended {
    let mut command = Command::new(name.as_ref());
    command.arg("7").arg(worked_file()).current_dir(from);
    run(command.stdin(Stdio::null()))
}

/// The same through bash, which finds a relative name from that folder.
fn asked_by_bash(name: &str, from: &Path) -> Ended {
    let mut bash = Command::new("bash");
    bash.args(["-c", "exec -- \"$0\" 7 \"$1\"", name]);
    bash.arg(worked_file()).current_dir(from);
    run(bash.stdin(Stdio::null()))
}

#[test]
fn it_works_from_any_folder() {
    let folder = Folder::new();
    for from in ["/", "/proc/self", "/tmp"].map(Path::new) {
        asked(command_file(), from).must_list_worked();
    }
    asked(command_file(), &folder.path).must_list_worked();
    for (from, name) in [
        ("", "bin/listing"),
        ("", "./bin/listing"),
        ("", "bin//../bin/./listing"),
        ("bin", "./listing"),
        ("docs", "../bin/listing"),
        ("crates/listing/src", "../../../bin/listing"),
    ] {
        asked_by_bash(name, &repository().join(from)).must_list_worked();
    }
}

/// A book's name is one from the folder that the command is run in.
#[test]
fn a_relative_name_is_one_from_here() {
    let folder = Folder::new();
    let mut command = Command::new(command_file());
    command
        .args(["7", "books/worked.book"])
        .stdin(Stdio::null());
    run(command.current_dir(repository())).must_list_worked();
    let ended = run(command.current_dir(&folder.path));
    ended.must_fail("can't open 'books/worked.book': No such file or directory");
    folder.write("books/worked.book", "");
    let ended = run(command.current_dir(&folder.path));
    ended.must_print("refused 1 at 0\n", 1);
}

#[test]
fn it_works_through_links() {
    let folder = Folder::new();
    let link = |to: &Path, name: &str| {
        let name = folder.path.join(name);
        symlink(to, &name).expect("a link can be made");
        name
    };
    fs::create_dir(folder.path.join("-below")).expect("a folder can be made");
    let links = [
        link(&command_file(), "a link"),
        link(&command_file(), "listing"),
        link(Path::new("a link"), "a link to a link"),
        link(Path::new("../a link to a link"), "-below/it's \"a\" link"),
        link(Path::new("./-below/it's \"a\" link"), "-link"),
        link(&command_file(), "$(touch canary)"),
        link(&repository(), "the repository").join("bin/listing"),
        link(&repository().join("bin"), "-bin").join("listing"),
    ];
    let count = folder.names().len();
    for name in &links {
        asked(name, &folder.path).must_list_worked();
        asked(name, Path::new("/")).must_list_worked();
    }
    for name in [
        "./a link",
        "./-link",
        "-below/it's \"a\" link",
        "-bin/listing",
    ] {
        asked_by_bash(name, &folder.path).must_list_worked();
    }
    assert_eq!(folder.names().len(), count, "{:?}", folder.names());
}

/// Settings that make a shell look elsewhere, or behave otherwise.
#[test]
fn the_environment_does_not_disturb_it() {
    let folder = Folder::new();
    for name in ["bin", "tests", "target", "crates"] {
        fs::create_dir(folder.path.join(name)).expect("a folder can be made");
    }
    let elsewhere = folder.path.to_str().expect("its name is UTF-8");
    let settings = [
        ("CDPATH", elsewhere),
        ("CDPATH", ".:/"),
        ("OLDPWD", elsewhere),
        ("POSIXLY_CORRECT", "1"),
        ("LC_ALL", "C.UTF-8"),
        ("LANGUAGE", "de"),
        ("IFS", "0123456789"),
        ("account", "9"),
        ("root", elsewhere),
        ("program", "/bin/true"),
        ("most_read", "10"),
    ];
    for (name, value) in settings {
        let mut command = Command::new("bash");
        command.args(["bin/listing", "7"]).current_dir(repository());
        command.env(name, value).stdin(Stdio::null());
        run(command.arg(worked_file())).must_list_worked();
        let mut command = Command::new(command_file());
        command.args(["7", "missing"]).current_dir(&folder.path);
        let ended = run(command.env(name, value).stdin(Stdio::null()));
        ended.must_fail("No such file or directory");
    }
}

/// On the PATH, the command needs no folder before its name.
#[test]
fn it_is_found_on_the_path() {
    let folder = Folder::new();
    symlink(command_file(), folder.path.join("listing")).expect("a link can be made");
    let path = std::env::var("PATH").expect("there is a PATH");
    for first in [repository().join("bin"), folder.path.clone()] {
        let mut shell = Command::new("bash");
        shell.args(["-c", "listing 7 \"$0\""]).arg(worked_file());
        shell.env("PATH", format!("{}:{path}", first.display()));
        run(shell.current_dir("/").stdin(Stdio::null())).must_list_worked();
    }
}

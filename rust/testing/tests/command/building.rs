//! When the program is built, and what is said meanwhile. All of this is done in copies
//! of the repository, with a stand-in for `rt` that proves nothing: it notes that it was
//! called, prints what the real one prints, and puts the program in its place. First
//! `rt all check` proves the crates, and then `rt run` builds the program.

use std::collections::BTreeSet;
use std::env;
use std::fs::{self, File, Permissions};
use std::io::{BufRead as _, BufReader, Read as _};
use std::os::unix::fs::{symlink, PermissionsExt as _};
use std::path::{Path, PathBuf};
use std::process::{Command, Stdio};
use std::thread;
use std::time::{Duration, SystemTime};

use fervolatro_testing::requests::worked::worked_book;

use crate::run::{
    command_file, end, is_in_readme, repository, run, run_on, start, worked_file, Ended, Folder,
};

/// What the stand-in does. `wait`, if it is there, makes it stop behind the first crate
/// until there is a file `go`, for ten seconds at most.
const STAND_IN: &str = r#"#!/bin/sh
printf '%s\n' "$*" >>"$STAND_IN/calls"
cat >>"$STAND_IN/eaten"
[ "${PWD##*/crates/}" = listing ] || exit 2
if [ "$1" = run ]; then
    mkdir -p out
    [ ! -e "$STAND_IN/program" ] || cp "$STAND_IN/program" out/listing
    cat "$STAND_IN/runs"
    exit "$(cat "$STAND_IN/ends")"
fi
head -n 3 "$STAND_IN/says"
if [ -e "$STAND_IN/wait" ]; then
    left=100
    while [ ! -e "$STAND_IN/go" ] && [ "$left" -gt 0 ]; do
        sleep 0.1
        left=$((left - 1))
    done
    [ -e "$STAND_IN/go" ] && echo 'in time' >"$STAND_IN/released"
fi
tail -n +4 "$STAND_IN/says"
exit "$(cat "$STAND_IN/status")"
"#;

/// A copy of what the command needs, and beside it a toolchain's folder that has the
/// stand-in, and an identity of its own.
struct Copied {
    folder: Folder,
}

impl Copied {
    fn new() -> Self {
        command_file();
        let copied = Copied {
            folder: Folder::new(),
        };
        let (from, to) = (repository(), copied.root());
        for file in ["bin/listing", "tests/x86", "crates.txt"] {
            copy(&from.join(file), &to.join(file));
        }
        for entry in fs::read_dir(from.join("crates")).expect("there are crates") {
            let name = entry.expect("it can be read").file_name();
            for part in ["src", "specs", "proofs"] {
                let part = Path::new("crates").join(&name).join(part);
                copy(&from.join(&part), &to.join(&part));
            }
        }
        copy(
            &from.join("crates/listing/out/listing"),
            &copied.stand_in("program"),
        );
        let rt = copied.folder.write("kit/bin/rt", STAND_IN);
        fs::set_permissions(rt, Permissions::from_mode(0o755)).expect("it is our own");
        copied.folder.write("kit/KIT-ID", "a kit\n");
        // What tests/x86 takes of it where the machine is another.
        for part in ["bin/rattle-link", "toolchain"] {
            let link = copied.folder.path.join("kit").join(part);
            symlink(kit().join(part), link).expect("a link can be made");
        }
        copied.rt_says(&all_proved(), 0);
        copied.run_says("rt: running out/listing\nrefused 1 at 0\n", 0);
        copied
    }

    fn root(&self) -> PathBuf {
        self.folder.path.join("a copy's \"folder\"")
    }

    /// A file of the stand-in's.
    fn stand_in(&self, name: &str) -> PathBuf {
        self.folder.path.join("stand-in").join(name)
    }

    /// Sets what the stand-in prints of the crates, and its status.
    fn rt_says(&self, words: &str, status: u8) {
        self.folder.write("stand-in/says", words);
        self.folder.write("stand-in/status", status.to_string());
    }

    /// The same of the program.
    fn run_says(&self, words: &str, status: u8) {
        self.folder.write("stand-in/runs", words);
        self.folder.write("stand-in/ends", status.to_string());
    }

    /// Writes a file of the copy.
    fn write(&self, name: &str, text: &str) {
        self.folder.write(self.root().join(name), text);
    }

    /// Writes this behind the text of a file of the copy.
    fn append(&self, name: &str, more: &str) {
        let text = fs::read_to_string(self.root().join(name)).expect("the file is there");
        self.write(name, &(text + more));
    }

    /// How often the stand-in was called for the crates, each time for those of the
    /// program and no more, and then at most once to build it.
    fn calls(&self) -> usize {
        let calls = fs::read_to_string(self.stand_in("calls")).unwrap_or_default();
        let mut before = "";
        for call in calls.lines() {
            let is_wanted = call == "all check" || (before, call) == ("all check", "run");
            assert!(is_wanted, "{calls}");
            before = call;
        }
        let eaten = fs::read(self.stand_in("eaten")).unwrap_or_default();
        assert!(eaten.is_empty(), "rt was given an input");
        calls.lines().filter(|call| *call == "all check").count()
    }

    /// How many files the command keeps: two, which are the program and the lock.
    fn kept(&self) -> usize {
        let kept = fs::read_dir(self.root().join("target/command"));
        kept.expect("the program was built").count()
    }

    /// The copy's command, with the stand-in's toolchain.
    fn ask(&self, file: impl AsRef<Path>) -> Command {
        let mut command = Command::new(self.root().join("bin/listing"));
        command.arg("7").arg(file.as_ref()).stdin(Stdio::null());
        command
            .env("STAND_IN", self.stand_in(""))
            .env("RATTLE_HOME", self.folder.path.join("kit"));
        command
    }

    /// Asks for account 7 of the worked book, and says whether the program was built.
    /// Nothing is said of building where it was not.
    fn builds(&self) -> bool {
        let before = self.calls();
        let ended = run(&mut self.ask(worked_file()));
        ended.must_list_worked_in_the_end();
        let calls = self.calls() - before;
        assert_eq!(calls == 0, ended.stderr.is_empty(), "{ended}");
        assert!(calls < 2, "it was built twice");
        calls == 1
    }
}

/// Copies a file or a folder, if it is there.
fn copy(from: &Path, to: &Path) {
    if from.is_dir() {
        for entry in fs::read_dir(from).expect("the folder can be read") {
            let name = entry.expect("it can be read").file_name();
            copy(&from.join(&name), &to.join(&name));
        }
    } else if from.exists() {
        let folder = to.parent().expect("it is below a folder");
        fs::create_dir_all(folder).expect("folders can be made");
        fs::copy(from, to).expect("a file can be copied");
    }
}

/// The toolchain's folder, as `tests/x86` finds it.
fn kit() -> PathBuf {
    if let Some(home) = env::var_os("RATTLE_HOME") {
        return PathBuf::from(home)
            .canonicalize()
            .expect("RATTLE_HOME is a folder");
    }
    let path = env::var_os("PATH").expect("there is a PATH");
    let mut found = env::split_paths(&path).map(|folder| folder.join("rt"));
    let rt = found.find(|rt| rt.is_file()).expect("rt is on the PATH");
    let rt = rt.canonicalize().expect("it is there");
    let bin = rt.parent().and_then(Path::parent);
    bin.expect("it is in a folder of the toolchain")
        .to_path_buf()
}

/// The crates that the listing program stands on, itself among them.
fn crates() -> Vec<String> {
    let listed = fs::read_to_string(repository().join("crates.txt")).expect("it is there");
    let mut below = BTreeSet::new();
    let mut left = vec!["listing"];
    while let Some(name) = left.pop() {
        let line = listed
            .lines()
            .find_map(|line| line.strip_prefix(name)?.strip_prefix(':'));
        if let Some(needed) = line.filter(|_| below.insert(name.to_string())) {
            left.extend(needed.split_whitespace());
        }
    }
    below.into_iter().collect()
}

/// What rt prints where each crate is proved, every second one of them long ago: of those
/// it says nothing, or whose work it takes.
fn all_proved() -> String {
    let crates = crates();
    let each = crates.iter().enumerate().map(|(place, name)| {
        let said = match place % 4 {
            0 | 2 => format!("fn {name}::some: proved\nlogic=proved functions=1\n"),
            1 => String::new(),
            _ => format!("rt: {name}: begins with what a check kept in /other/{name}\n"),
        };
        format!("== {name}\n{said}")
    });
    let each: String = each.collect();
    let summary: String = crates.iter().map(|name| format!("{name}: ok\n")).collect();
    let count = crates.len();
    format!("{each}== summary\n{summary}{count} of {count} crates ok\n")
}

#[test]
fn the_program_is_built_once() {
    let copied = Copied::new();
    assert!(copied.builds(), "the first run builds");
    assert!(!copied.builds(), "the second does not");
    copied.write("crates/listing/out/listing", "not a program\n");
    assert!(!copied.builds(), "what rt alone put there since is not run");
    fs::remove_dir_all(copied.root().join("crates/listing/out")).expect("it is our own");
    assert!(!copied.builds(), "nor needed");
    fs::remove_dir_all(copied.root().join("target")).expect("it is our own");
    assert!(copied.builds(), "it is built where all was removed");
}

/// A change of a copy, and its name.
type Change = (&'static str, fn(&Copied));

const SOURCES_CHANGED: [Change; 10] = [
    ("an edit of the program", |of| {
        of.append("crates/listing/src/main.rt", "// more\n")
    }),
    ("one below it", |of| {
        of.append("crates/ground/src/lib.rt", "// more\n")
    }),
    ("of definitions", |of| {
        of.append("crates/book/specs/Table.antt", "-- more\n")
    }),
    ("of proofs", |of| {
        of.append("crates/text/proofs/Ends.antt", "-- more\n")
    }),
    ("of crates.txt", |of| of.append("crates.txt", "# more\n")),
    ("a file more", |of| {
        of.write("crates/listing/proofs/More.antt", "-- more\n")
    }),
    ("a file renamed", |of| {
        let name = |name| of.root().join("crates/listing/proofs").join(name);
        fs::rename(name("More.antt"), name("Other.antt")).expect("it is our own");
    }),
    ("a file removed", |of| {
        fs::remove_file(of.root().join("crates/book/specs/Table.antt")).expect("it is our own");
    }),
    ("a byte moved to the next file", |of| {
        of.write("crates/text/specs/A.antt", "-- ab\n");
        of.write("crates/text/specs/B.antt", "-- c\n");
        of.builds();
        of.write("crates/text/specs/A.antt", "-- a\n");
        of.write("crates/text/specs/B.antt", "b-- c\n");
    }),
    ("another toolchain", |of| {
        of.folder.write("kit/KIT-ID", "another kit\n");
    }),
];

const OTHERS_CHANGED: [Change; 11] = [
    ("nothing", |_| ()),
    ("a later date", |of| {
        for name in [
            "crates/listing/src/main.rt",
            "crates/ground/src/lib.rt",
            "crates.txt",
        ] {
            let file = File::options().append(true).open(of.root().join(name));
            let file = file.expect("the file is there");
            file.set_modified(SystemTime::now()).expect("it is our own");
        }
    }),
    ("the same text written again", |of| {
        of.append("crates/listing/src/main.rt", "")
    }),
    ("a crate that is not below it", |of| {
        of.append("crates/asked/src/lib.rt", "// more\n")
    }),
    ("the library", |of| {
        of.append("crates/fervolatro/src/lib.rt", "// more\n")
    }),
    ("definitions of another crate", |of| {
        of.write("crates/guide/specs/More.antt", "-- more\n")
    }),
    ("a crate that is not listed", |of| {
        of.write("crates/more/src/lib.rt", "// more\n")
    }),
    ("a wrong version", |of| {
        of.write("crates/listing/must-fail/more.edit", "file: src/main.rt\n")
    }),
    ("what the program is to print", |of| {
        of.write("crates/listing/stdout", "more\n")
    }),
    ("a page", |of| of.write("docs/MORE.md", "more\n")),
    ("the command itself", |of| {
        of.append("bin/listing", "# more\n")
    }),
];

#[test]
fn it_is_built_again_when_its_sources_changed() {
    let copied = Copied::new();
    copied.builds();
    for (name, change) in SOURCES_CHANGED {
        change(&copied);
        assert!(copied.builds(), "{name}: it was not built");
        assert!(!copied.builds(), "{name}: it was built twice");
    }
    assert_eq!(copied.kept(), 2, "programs of older sources are left");
}

#[test]
fn it_is_not_built_again_when_other_things_changed() {
    let copied = Copied::new();
    copied.builds();
    for (name, change) in OTHERS_CHANGED {
        change(&copied);
        assert!(!copied.builds(), "{name}: it was built");
    }
}

/// Builds a shell script for a program, and asks it about the worked book.
fn asked_of_script(copied: &Copied, script: &str) -> Ended {
    copied.write("tests/x86", "#!/bin/sh\nshift\nexec \"$@\"\n");
    let program = format!("#!/bin/sh\n{script}\n");
    copied.folder.write("stand-in/program", program);
    copied.write("crates/listing/src/main.rt", script);
    run(&mut copied.ask(worked_file()))
}

#[test]
fn the_program_that_answers_is_the_one_of_the_sources() {
    let copied = Copied::new();
    for word in ["first", "second", "third", "second", "first", "first"] {
        let ended = asked_of_script(&copied, &format!("cat >/dev/null; echo account {word}"));
        assert_eq!(ended.stdout, format!("account {word}\n"), "{ended}");
    }
}

/// A program that fails in the middle, that is ended, that reads nothing, or that gives
/// no answer.
#[test]
fn what_a_failed_program_wrote_is_not_printed() {
    let copied = Copied::new();
    for (script, words) in [
        (
            "cat >/dev/null; echo account 7; exit 3",
            "failed with status 3",
        ),
        ("echo account 7; kill -9 $$", "failed with status 137"),
        ("exit 1", "failed with status 1"),
        (
            "exec /no/such/program",
            "the listing program failed with status",
        ),
        (
            "cat >/dev/null",
            "answered neither a statement nor a refusal",
        ),
        (
            "cat >/dev/null; echo accounts",
            "answered neither a statement nor a refusal",
        ),
    ] {
        let ended = asked_of_script(&copied, script);
        ended.must_fail_saying(words);
        assert!(!ended.stderr.contains("can't read"), "{ended}");
    }
}

/// Before it starts, and crate by crate.
#[test]
fn a_run_that_builds_says_so() {
    let copied = Copied::new();
    let crates = crates();
    let count = crates.len();
    assert!(count > 15, "the program stands on most crates");
    let ended = run(&mut copied.ask(worked_file()));
    let said: Vec<&str> = ended.stderr.lines().collect();
    let first = format!("listing: proving {count} crates and building the listing program, once");
    assert!(
        said[0].starts_with(&first) && said[0].contains("minutes"),
        "{ended}"
    );
    assert_eq!(said.len(), count + 1, "{ended}");
    assert!(is_in_readme(said[0]), "README has another first line");
    for (place, name) in crates.iter().enumerate() {
        let (line, time) = said[place + 1].split_once(" (").expect("it says when");
        let wanted = format!("listing: {} of {count} proved: {name}", place + 1);
        assert_eq!(line, wanted);
        let is_time = match place % 2 {
            // Of the seconds since the first line only the form is known.
            0 => time.starts_with("after ") && time.ends_with(" s)"),
            _ => time == "unchanged since it was last proved)",
        };
        assert!(is_time, "{time}");
    }
    ended.must_list_worked_in_the_end();
}

/// The last line of the first run, as README has it.
#[test]
fn the_readme_counts_the_crates() {
    let count = crates().len();
    let readme = fs::read_to_string(repository().join("README.md")).expect("it is there");
    let last = format!("\n    listing: {count} of {count} proved: listing (");
    assert!(readme.contains(&last), "{last:?} is not in README");
    assert!(
        readme.contains(&format!(" the program's {count} crates")),
        "{count}"
    );
}

/// The stand-in waits behind its first crate until that has been said.
#[test]
fn a_crate_is_said_when_it_is_proved() {
    let copied = Copied::new();
    copied.folder.write("stand-in/wait", "");
    let mut command = copied.ask(worked_file());
    command.stdout(Stdio::null()).stderr(Stdio::piped());
    let mut child = command.spawn().expect("the command can be started");
    let lines = BufReader::new(child.stderr.take().expect("it was piped")).lines();
    let mut said = 0;
    for line in lines {
        said += 1;
        if line.expect("it is UTF-8").contains(": 1 of ") {
            copied.folder.write("stand-in/go", "");
        }
    }
    assert!(child.wait().expect("it ends").success());
    assert_eq!(said, crates().len() + 1);
    assert!(
        copied.stand_in("released").exists(),
        "the first crate was said late"
    );
}

/// The book on the standard input is left for the program.
#[test]
fn rt_does_not_read_the_book() {
    let copied = Copied::new();
    let ended = run_on(&mut copied.ask("-"), &worked_book().encode());
    ended.must_list_worked_in_the_end();
    assert_eq!(copied.calls(), 1);
}

/// Nobody waits five minutes to be told of a wrong name.
#[test]
fn nothing_is_built_for_a_wrong_question() {
    let copied = Copied::new();
    run(&mut copied.ask("missing")).must_fail("No such file or directory");
    run(&mut copied.ask("/")).must_fail("is a folder");
    run(copied.ask("-").arg("more")).must_fail_saying("3 came");
    assert_eq!(copied.calls(), 0);
}

#[test]
fn what_is_not_proved_is_not_run() {
    let copied = Copied::new();
    let error = "src/lib.rt:3:1: error: not so";
    let unproved = format!(
        "== ground\nfn ground::some: proved\n{error}\nlogic=not-proved\n\
         rattle build: nothing was built\n== summary\nground: failed (1)\n\
         book: not run, since ground failed\n0 of 2 crates ok\n"
    );
    let fails = || {
        let ended = run(&mut copied.ask(worked_file()));
        ended.must_fail_saying(
            "listing: rt all check failed, so there is no listing program to run",
        );
        let said = [
            error,
            " 1 of ",
            "NOT proved: ground\n",
            "nothing was built\n",
            "book: not run, since",
            "ground: failed (1)\n",
        ];
        for words in said {
            ended.must_fail_saying(words);
        }
    };
    copied.rt_says(&unproved, 1);
    fails();
    fails();
    assert_eq!(copied.calls(), 2, "it is tried again each time");
    copied.rt_says(&all_proved(), 0);
    assert!(copied.builds());
    copied.rt_says(&unproved, 1);
    copied.append("crates/ground/src/lib.rt", "// wrong\n");
    fails();
    fails();
    assert_eq!(copied.calls(), 5);
}

/// rt can fail without a word of a crate, or leave no program.
#[test]
fn a_build_that_goes_wrong_is_an_error() {
    let copied = Copied::new();
    let told = "rt: crates.txt: write NAME [staticlib|wasm64] [: LIBRARY ..]";
    copied.rt_says(&format!("{told}\n"), 2);
    let ended = run(&mut copied.ask(worked_file()));
    ended.must_fail_saying(told);
    // A crate that ends with no verdict.
    copied.rt_says(
        "== ground\nrt: the check was killed\n== summary\nground: failed (-9)\n",
        1,
    );
    let ended = run(&mut copied.ask(worked_file()));
    ended.must_fail_saying("NOT proved: ground\nrt: the check was killed\nground: failed");
    copied.rt_says(&all_proved(), 0);
    copied.run_says("LLVM did not compile what was proved\n", 1);
    let ended = run(&mut copied.ask(worked_file()));
    ended.must_fail_saying("LLVM did not compile");
    ended.must_fail_saying("listing: rt run failed, so there is no listing program to run");
    copied.run_says("", 0);
    let program = copied.stand_in("program");
    let aside = copied.stand_in("aside");
    fs::rename(&program, &aside).expect("it is our own");
    for part in ["target", "crates/listing/out"] {
        fs::remove_dir_all(copied.root().join(part)).expect("it is our own");
    }
    let ended = run(&mut copied.ask(worked_file()));
    ended.must_fail_saying("can't put the listing program into");
    let nowhere = copied.folder.path.join("no kit");
    let ended = run(copied.ask(worked_file()).env("RATTLE_HOME", nowhere));
    ended.must_fail("where the Rattle toolchain should be");
    fs::rename(aside, program).expect("it is our own");
    assert!(copied.builds());
}

/// rt asks itself whether the program of its stamp is still there, so that is left to it.
#[test]
fn a_program_that_was_removed_is_built() {
    let copied = Copied::new();
    let stamp = copied.root().join("crates/listing/out/listing.stamp");
    copied.folder.write(&stamp, "a digest\n");
    assert!(copied.builds());
    assert!(stamp.exists(), "rt's stamp is left");
    fs::remove_file(copied.root().join("crates/listing/out/listing")).expect("it is our own");
    copied.append("crates.txt", "# more\n");
    assert!(copied.builds());
    assert!(stamp.exists(), "rt's stamp is left");
}

/// Waits until there is such a file, for ten seconds at most.
fn wait_for(file: &Path) {
    for _ in 0..200 {
        if file.exists() {
            return;
        }
        thread::sleep(Duration::from_millis(50));
    }
    panic!("{} did not come", file.display());
}

#[test]
fn two_first_runs_do_not_disturb_each_other() {
    let copied = Copied::new();
    copied.folder.write("stand-in/wait", "");
    let mut first = copied.ask(worked_file());
    let builder = start(&mut first);
    wait_for(&copied.stand_in("calls"));
    let mut second = copied.ask(worked_file());
    let mut other = start(&mut second);
    let mut said = BufReader::new(other.stderr.take().expect("it was piped"));
    let mut line = String::new();
    said.read_line(&mut line).expect("it is UTF-8");
    assert!(
        line.contains("another run is building the program"),
        "{line}"
    );
    copied.folder.write("stand-in/go", "");
    end(&first, builder).must_list_worked_in_the_end();
    end(&second, other).must_list_worked_in_the_end();
    said.read_to_string(&mut line).expect("it is UTF-8");
    assert_eq!(line.lines().count(), 1, "it built as well: {line}");
    assert_eq!(copied.calls(), 1, "one builds for both");
}

/// A run that is ended while it builds leaves nothing that the next takes for built.
#[test]
fn an_ended_build_is_none() {
    let copied = Copied::new();
    copied.folder.write("stand-in/wait", "");
    let mut command = copied.ask(worked_file());
    let mut child = start(&mut command);
    wait_for(&copied.stand_in("calls"));
    child.kill().expect("it runs");
    copied.folder.write("stand-in/go", "");
    let ended = end(&command, child);
    assert!(ended.stdout.is_empty() && ended.status.is_none(), "{ended}");
    assert!(copied.builds());
    assert_eq!(copied.calls(), 2);
    assert_eq!(copied.kept(), 2, "something is left");
}

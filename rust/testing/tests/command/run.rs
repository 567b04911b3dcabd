//! How the tests start the command, what they hold a run to, and the folders that they
//! work in.

use std::env;
use std::ffi::OsStr;
use std::fmt;
use std::fs;
use std::io::Write as _;
use std::path::{Path, PathBuf};
use std::process::{self, Child, Command, Output, Stdio};
use std::sync::atomic::{AtomicUsize, Ordering};
use std::sync::Once;

use fervolatro_testing::requests::worked::worked_book;
use fervolatro_testing::{in_repository, reference};

/// What the command prints for account 7 of the worked book.
pub const WORKED: &str = include_str!("../../../../crates/listing/stdout");

/// The folder of the repository.
pub fn repository() -> PathBuf {
    in_repository("")
        .canonicalize()
        .expect("the repository is there")
}

/// Whether README shows these lines, set off as what is printed.
pub fn is_in_readme(lines: &str) -> bool {
    let readme = fs::read_to_string(repository().join("README.md")).expect("it is there");
    let shown: String = lines.lines().map(|line| format!("    {line}\n")).collect();
    readme.contains(&format!("\n{shown}"))
}

pub fn worked_file() -> PathBuf {
    repository().join("books/worked.book")
}

/// `bin/listing` of the repository, which has built its program: a test that is not
/// about that sees none of it.
pub fn command_file() -> PathBuf {
    static BUILT: Once = Once::new();
    let file = repository().join("bin/listing");
    BUILT.call_once(|| {
        let built = Command::new(&file).arg("7").arg(worked_file()).output();
        let built = built.expect("bin/listing can be started");
        assert!(
            built.status.success(),
            "bin/listing 7 books/worked.book: {built:?}"
        );
    });
    file
}

/// The command with these arguments. It has nothing on its standard input.
pub fn listing<A: AsRef<OsStr>>(arguments: &[A]) -> Command {
    let mut command = Command::new(command_file());
    command.args(arguments).stdin(Stdio::null());
    command
}

/// The command with an account and a file.
pub fn ask(account: impl AsRef<OsStr>, file: impl AsRef<OsStr>) -> Command {
    listing(&[account.as_ref(), file.as_ref()])
}

/// bash, with the command as `$0` and these words as `$1` and so on.
pub fn bash<A: AsRef<OsStr>>(script: &str, words: &[A]) -> Command {
    let mut command = Command::new("bash");
    command.arg("-c").arg(script).arg(command_file());
    command.args(words).stdin(Stdio::null());
    command
}

/// A run that has ended: how it was started, and all that it showed.
pub struct Ended {
    pub started: String,
    pub status: Option<i32>,
    pub stdout: String,
    pub stderr: String,
}

/// Runs to the end.
pub fn run(command: &mut Command) -> Ended {
    let output = command.output().expect("the command can be started");
    ended(command, output)
}

/// Starts it, with a pipe for each of its three streams.
pub fn start(command: &mut Command) -> Child {
    command.stdin(Stdio::piped()).stdout(Stdio::piped());
    let child = command.stderr(Stdio::piped()).spawn();
    child.expect("the command can be started")
}

/// What is left to see of one that was started, when it has ended.
pub fn end(command: &Command, child: Child) -> Ended {
    let output = child.wait_with_output().expect("the command ends");
    ended(command, output)
}

/// Runs with these bytes in a pipe on the standard input. It may leave the rest of them
/// unread.
pub fn run_on(command: &mut Command, input: &[u8]) -> Ended {
    let mut child = start(command);
    let mut stdin = child.stdin.take().expect("it was piped");
    let _ = stdin.write_all(input);
    drop(stdin);
    end(command, child)
}

fn ended(command: &Command, output: Output) -> Ended {
    Ended {
        started: format!("{command:?}"),
        status: output.status.code(),
        stdout: String::from_utf8_lossy(&output.stdout).into_owned(),
        stderr: String::from_utf8_lossy(&output.stderr).into_owned(),
    }
}

impl Ended {
    /// It printed this, ended with this status, and said nothing else.
    pub fn must_print(&self, printed: &str, status: i32) {
        let is_it = self.stdout == printed && self.stderr.is_empty();
        assert!(
            is_it && self.status == Some(status),
            "expected {status} and\n{printed}but {self}"
        );
    }

    /// It listed account 7 of the worked book.
    pub fn must_list_worked(&self) {
        self.must_print(WORKED, 0);
    }

    /// The same, whatever it said meanwhile.
    pub fn must_list_worked_in_the_end(&self) {
        let is_it = self.stdout == WORKED && self.status == Some(0);
        assert!(is_it, "expected 0 and\n{WORKED}but {self}");
    }

    /// It printed what the reference does for this account and book: the statement with
    /// status 0, a refusal with 1.
    pub fn must_answer(&self, account: u32, book: &[u8]) {
        let printed = reference::listing(&[&account.to_le_bytes(), book].concat());
        let status = i32::from(printed.starts_with("refused "));
        self.must_print(&printed, status);
    }

    /// It printed nothing, ended with status 2, and said these words in a message of
    /// one line.
    pub fn must_fail(&self, words: &str) {
        self.must_fail_saying(words);
        assert_eq!(self.stderr.lines().count(), 1, "{self}");
    }

    /// The same, with more than one line.
    pub fn must_fail_saying(&self, words: &str) {
        let is_said = self.stderr.starts_with("listing: ") && self.stderr.contains(words);
        assert!(
            is_said && self.stdout.is_empty() && self.status == Some(2),
            "expected 2 and {words:?}, but {self}"
        );
    }
}

impl fmt::Display for Ended {
    fn fmt(&self, f: &mut fmt::Formatter) -> fmt::Result {
        let Ended {
            started,
            status,
            stdout,
            stderr,
        } = self;
        write!(
            f,
            "{started}\nended with {status:?}, printed\n{stdout}and said\n{stderr}"
        )
    }
}

/// A folder of a test's own, outside the repository, removed at the end. Its name has
/// blanks, quotes and what a shell would take for a command.
pub struct Folder {
    pub path: PathBuf,
}

impl Folder {
    pub fn new() -> Self {
        static MADE: AtomicUsize = AtomicUsize::new(0);
        let number = MADE.fetch_add(1, Ordering::Relaxed);
        let name = format!("-it's \"a\" $(false) folder * {} {number}", process::id());
        let path = env::temp_dir()
            .canonicalize()
            .expect("there is a temporary folder");
        let path = path.join(name);
        fs::create_dir(&path).expect("a folder can be made");
        Folder { path }
    }

    /// Writes a file below the folder, and its folders if they are missing.
    pub fn write(&self, name: impl AsRef<Path>, bytes: impl AsRef<[u8]>) -> PathBuf {
        let path = self.path.join(name);
        let folder = path.parent().expect("it is below a folder");
        fs::create_dir_all(folder).expect("folders can be made");
        fs::write(&path, bytes).expect("a file can be written");
        path
    }

    pub fn write_worked(&self, name: impl AsRef<Path>) -> PathBuf {
        self.write(name, worked_book().encode())
    }

    /// The names of what is in the folder.
    pub fn names(&self) -> Vec<String> {
        let entries = fs::read_dir(&self.path).expect("the folder is there");
        let names = entries.map(|entry| entry.expect("it can be read").file_name());
        names
            .map(|name| name.to_string_lossy().into_owned())
            .collect()
    }
}

impl Drop for Folder {
    fn drop(&mut self) {
        // What is left of a failed test is no failure of its own.
        let _ = fs::remove_dir_all(&self.path);
    }
}

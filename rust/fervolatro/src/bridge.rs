//! The library asked through the bridge (`tests/bridge`), for the repository's own
//! tests on a machine that does not run x86-64 code. The bridge is started by
//! `tests/x86 run target/outer/bridge`; where the environment variable
//! FERVOLATRO_BRIDGE is set, the program that it names is started instead, with no
//! arguments.

use crate::calls::{Books, Cost, Cut, Entry, Heading, NmasEntry, NmasSize, Pool, Verdict, Written};
use std::cell::RefCell;
use std::env;
use std::io::{Read, Write};
use std::path::PathBuf;
use std::process::{Child, ChildStdin, ChildStdout, Command, Stdio};

/// A running bridge: requests go in, answers come out.
struct Bridge {
    child: Child,
    requests: ChildStdin,
    answers: ChildStdout,
}

thread_local! {
    static BRIDGE: RefCell<Bridge> = RefCell::new(Bridge::start());
}

impl Bridge {
    fn start() -> Bridge {
        let mut child = program()
            .stdin(Stdio::piped())
            .stdout(Stdio::piped())
            .spawn()
            .expect(
                "the bridge is built by `tests/x86 cc target/outer/bridge tests/bridge/bridge.c`",
            );
        Bridge {
            requests: child.stdin.take().expect("it was piped"),
            answers: child.stdout.take().expect("it was piped"),
            child,
        }
    }

    fn send(&mut self, request: &[u8]) {
        self.requests
            .write_all(request)
            .expect("the bridge listens");
    }

    fn receive(&mut self, bytes: &mut [u8]) {
        self.answers.read_exact(bytes).expect("the bridge answers");
    }

    /// Reads an answer of `N` numbers.
    fn numbers<const N: usize>(&mut self) -> [u64; N] {
        let mut bytes = [[0; 8]; N];
        self.receive(bytes.as_flattened_mut());
        bytes.map(u64::from_le_bytes)
    }
}

impl Drop for Bridge {
    fn drop(&mut self) {
        // The end of its input would end it too, but that is closed only after this.
        let _ = self.child.kill();
        let _ = self.child.wait();
    }
}

fn program() -> Command {
    if let Some(program) = env::var_os("FERVOLATRO_BRIDGE") {
        return Command::new(program);
    }
    let root = PathBuf::from(env!("CARGO_MANIFEST_DIR")).join("../..");
    let mut command = Command::new(root.join("tests/x86"));
    command.arg("run").arg(root.join("target/outer/bridge"));
    command
}

/// A request on books: its letter, and both slices.
fn request_on(call: u8, Books { book, locked }: Books) -> Vec<u8> {
    let mut request = request(call, book);
    put_slice(&mut request, locked);
    request
}

/// A request: its letter, and the slice that the call reads.
fn request(call: u8, slice: &[u8]) -> Vec<u8> {
    let mut request = vec![call];
    put_slice(&mut request, slice);
    request
}

/// Adds a slice to a request: its length, then its bytes.
fn put_slice(request: &mut Vec<u8>, slice: &[u8]) {
    let len = u32::try_from(slice.len()).expect("the bridge takes less than 4 GiB");
    request.extend_from_slice(&len.to_le_bytes());
    request.extend_from_slice(slice);
}

/// Sends a request, and reads its answer of `N` numbers.
fn ask<const N: usize>(request: &[u8]) -> [u64; N] {
    BRIDGE.with_borrow_mut(|bridge| {
        bridge.send(request);
        bridge.numbers()
    })
}

/// Sends a request with the buffer at its end, and reads the answer and the
/// buffer as the call left it.
fn ask_to_write(mut request: Vec<u8>, buffer: &mut [u8]) -> Written {
    put_slice(&mut request, buffer);
    BRIDGE.with_borrow_mut(|bridge| {
        bridge.send(&request);
        let written = written(bridge.numbers());
        bridge.receive(buffer);
        written
    })
}

fn written([refusal, place, length]: [u64; 3]) -> Written {
    Written {
        refusal,
        place,
        length,
    }
}

pub(crate) fn check(books: Books) -> Verdict {
    let [refusal, place] = ask(&request_on(b'c', books));
    Verdict { refusal, place }
}

pub(crate) fn length(books: Books, account: u32) -> Written {
    let mut request = request_on(b'n', books);
    request.extend_from_slice(&account.to_le_bytes());
    written(ask(&request))
}

pub(crate) fn statement(books: Books, account: u32, buffer: &mut [u8]) -> Written {
    let mut request = request_on(b's', books);
    request.extend_from_slice(&account.to_le_bytes());
    ask_to_write(request, buffer)
}

pub(crate) fn balance(books: Books, pool: u64) -> Pool {
    let mut request = request_on(b'b', books);
    request.extend_from_slice(&pool.to_le_bytes());
    let [refusal, place, amount, lines, sum] = ask(&request);
    Pool {
        refusal,
        place,
        // The bits are those of the signed numbers.
        amount: amount.cast_signed(),
        lines,
        sum: sum.cast_signed(),
    }
}

pub(crate) fn cutoff(books: Books, pool: u64, index: u64) -> Cut {
    let mut request = request_on(b'o', books);
    request.extend_from_slice(&pool.to_le_bytes());
    request.extend_from_slice(&index.to_le_bytes());
    let [refusal, place, stage, region, divisor, cut] = ask(&request);
    Cut {
        refusal,
        place,
        stage,
        region,
        divisor,
        // The bits are those of the signed number.
        cut: cut.cast_signed(),
    }
}

pub(crate) fn header(statement: &[u8]) -> Heading {
    let [refusal, place, account, date, interval, run, lines] = ask(&request(b'h', statement));
    Heading {
        refusal,
        place,
        account,
        date,
        interval,
        run,
        lines,
    }
}

pub(crate) fn line(statement: &[u8], index: u64) -> Entry {
    let mut request = request(b'l', statement);
    request.extend_from_slice(&index.to_le_bytes());
    let [refusal, place, id, part, regions, unit, amount] = ask(&request);
    Entry {
        refusal,
        place,
        id,
        part,
        regions,
        unit,
        // The bits are those of the signed number.
        amount: amount.cast_signed(),
    }
}

pub(crate) fn lines(statement: &[u8], buffer: &mut [u8]) -> Written {
    ask_to_write(request(b'a', statement), buffer)
}

pub(crate) fn rewrite(statement: &[u8], buffer: &mut [u8]) -> Written {
    ask_to_write(request(b'r', statement), buffer)
}

/// Sends a request, and reads its answer of a cost.
fn ask_cost(request: &[u8]) -> Cost {
    let [refusal, place, amount] = ask(request);
    Cost {
        refusal,
        place,
        amount,
    }
}

pub(crate) fn payment(rows: &[u8], service: u64) -> Cost {
    let mut request = request(b'p', rows);
    request.extend_from_slice(&service.to_le_bytes());
    ask_cost(&request)
}

pub(crate) fn base_cost(rows: &[u8], id: u32, service: u64) -> Cost {
    let mut request = request(b'k', rows);
    request.extend_from_slice(&id.to_le_bytes());
    request.extend_from_slice(&service.to_le_bytes());
    ask_cost(&request)
}

pub(crate) fn nmas(books: Books, account: u32, r#type: u64, buffer: &mut [u8]) -> Written {
    let mut request = request_on(b'f', books);
    request.extend_from_slice(&account.to_le_bytes());
    request.extend_from_slice(&r#type.to_le_bytes());
    ask_to_write(request, buffer)
}

pub(crate) fn nmas_rows(text: &[u8]) -> NmasSize {
    let [refusal, place, rows] = ask(&request(b't', text));
    NmasSize {
        refusal,
        place,
        rows,
    }
}

pub(crate) fn nmas_row(text: &[u8], index: u64) -> NmasEntry {
    let mut request = request(b'e', text);
    request.extend_from_slice(&index.to_le_bytes());
    let numbers: [u64; 18] = ask(&request);
    let [refusal, place, date, run, interval, account, contract, r#type, region, factor, payment, ..] =
        numbers;
    // The bits are those of the signed numbers.
    let [.., recovery, own_ace, region_ace, own_asoe, region_asoe, by_ace, by_asoe] =
        numbers.map(u64::cast_signed);
    NmasEntry {
        refusal,
        place,
        date,
        run,
        interval,
        account,
        contract,
        r#type,
        region,
        factor,
        payment,
        recovery,
        own_ace,
        region_ace,
        own_asoe,
        region_asoe,
        by_ace,
        by_asoe,
    }
}

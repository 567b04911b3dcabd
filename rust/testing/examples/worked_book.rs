//! Writes the worked book of the scope document to the path given.

use std::env;
use std::fs;
use std::io;

use fervolatro_testing::requests::worked::worked_book;

fn main() -> io::Result<()> {
    let path = env::args_os()
        .nth(1)
        .ok_or_else(|| io::Error::other("usage: worked_book PATH"))?;
    fs::write(path, worked_book().encode())
}

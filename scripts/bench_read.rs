//! Reads the file that the word names, and prints how many bytes it has.
use std::{env, fs, io};

fn main() -> io::Result<()> {
    let name = env::args().nth(1).expect("a name");
    println!("{}", fs::read(name)?.len());
    Ok(())
}

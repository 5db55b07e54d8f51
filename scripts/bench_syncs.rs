//! Writes a journal again, batch by batch, as a run writes it: length, body and a shut gate behind the last gate, a sync, the gate,
//! a sync. It computes nothing, and prints how many batches there are. The words are the journal and the new file.
use std::env;
use std::fs::{self, File};
use std::io;
use std::os::unix::fs::FileExt;

fn append(file: &File, at: usize, body: &[u8]) -> io::Result<()> {
    let mut piece = (body.len() as u32).to_be_bytes().to_vec();
    piece.extend_from_slice(body);
    piece.push(0);
    file.write_all_at(&piece, at as u64 + 1)?;
    file.sync_all()?;
    file.write_all_at(&[1], at as u64)?;
    file.sync_all()
}

fn main() -> io::Result<()> {
    let names: Vec<String> = env::args().skip(1).collect();
    let journal = fs::read(&names[0])?;
    let file = File::create(&names[1])?;
    file.write_all_at(&[0], 0)?;
    file.sync_all()?;
    let (mut at, mut bodies) = (0, 0);
    while journal[at] != 0 {
        let start = at + 5;
        let size = u32::from_be_bytes(journal[at + 1..start].try_into().expect("four bytes")) as usize;
        append(&file, at, &journal[start..start + size])?;
        at = start + size;
        bodies += 1;
    }
    println!("{}", bodies - 1);
    Ok(())
}

// Writes `file` and `table`: a train, and then so many records, a sale and its undoing in turn.
use std::env;
use std::fs::{self, File};
use std::io::{self, BufWriter, Write};

fn main() -> io::Result<()> {
    let count: u32 = env::args().nth(1).and_then(|word| word.parse().ok()).unwrap_or(5_000_000);
    let train = 7u32.to_be_bytes();
    fs::write("table", "7 400 30 0\n")?;
    let mut out = BufWriter::new(File::create("file")?);
    out.write_all(&[10])?;
    out.write_all(&train)?;
    for ticket in 1..=count / 2 {
        let number = ticket.to_be_bytes();
        out.write_all(&[6])?;
        out.write_all(&number)?;
        out.write_all(&[1])?;
        out.write_all(&train)?;
        out.write_all(&[0, 0, 2, 4, 7])?;
        out.write_all(&number)?;
    }
    out.flush()
}

//! What the examples share: an order from the system's random numbers, and files that replace none.

use lomuveran::Permutation;
use std::{error::Error, fs, fs::File, fs::OpenOptions, io, io::Read, io::Write, os::unix::fs::OpenOptionsExt};

/// An order of n places, drawn with 64 words to spare: some may be skipped.
pub fn drawn(n: usize) -> Result<Permutation, Box<dyn Error>> {
    let mut bytes = vec![0; 4 * (n + 64)];
    File::open("/dev/urandom")?.read_exact(&mut bytes)?;
    let words: Vec<u32> = bytes.chunks_exact(4).map(|word| u32::from_le_bytes([word[0], word[1], word[2], word[3]])).collect();
    Ok(Permutation::shuffle(n, &words)?)
}

/// Makes new files, which their owner alone can read, and has them on the disk. A file that exists is left as it is; where one cannot be made,
/// none is.
pub fn create(files: &[(&str, &[u8])]) -> Result<(), Box<dyn Error>> {
    let mut made = Vec::new();
    for (path, bytes) in files {
        if let Err(why) = write_new(path, bytes, &mut made) {
            made.iter().for_each(|path| drop(fs::remove_file(path)));
            return Err(format!("{path}: {why}").into());
        }
    }
    Ok(())
}

fn write_new<'a>(path: &'a str, bytes: &[u8], made: &mut Vec<&'a str>) -> io::Result<()> {
    let mut file = OpenOptions::new().write(true).create_new(true).mode(0o600).open(path)?;
    made.push(path);
    file.write_all(bytes)?;
    file.sync_all()
}

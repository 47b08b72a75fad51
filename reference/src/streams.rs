//! The program's input and output. They are descriptors of its own, since the library's standard streams take a
//! descriptor that cannot be read or written for an empty or an endless one.

use std::fs::File;
use std::io::{stderr, stdin, stdout, BufReader, BufWriter, Result, Write};
use std::os::fd::AsFd;

/// The bytes that are read or written at once.
const AT_ONCE: usize = 1 << 16;

/// Standard input, buffered.
pub fn input() -> Result<BufReader<File>> {
    let file = File::from(stdin().as_fd().try_clone_to_owned()?);
    Ok(BufReader::with_capacity(AT_ONCE, file))
}

/// Standard output, buffered.
pub fn output() -> Result<BufWriter<File>> {
    let file = File::from(stdout().as_fd().try_clone_to_owned()?);
    Ok(BufWriter::with_capacity(AT_ONCE, file))
}

/// Write all of this to standard output.
pub fn print(text: &[u8]) -> Result<()> {
    let mut output = output()?;
    output.write_all(text)?;
    output.flush()
}

/// A message on standard error; where that fails there is nobody to tell.
pub fn tell(message: &str) {
    let _ = writeln!(stderr(), "{message}");
}

//! A program that is given its standard input through a pipe.

use std::io::{self, ErrorKind, Write};
use std::path::{Path, PathBuf};
use std::process::{ChildStdin, Command, Output, Stdio};
use std::{env, thread, time::Duration};

const CRATES: &str = concat!(env!("CARGO_MANIFEST_DIR"), "/../../crates");

/// Between two pieces, so that the program has read the first and waits.
const PAUSE: Duration = Duration::from_millis(1);

/// How the input comes.
#[derive(Clone, Copy, Debug)]
pub enum Feed {
    AtOnce,
    /// In pieces of this many bytes.
    Pieces(usize),
}

/// Where a proved program stands: in the folder that YINQOCHA_PROGRAMS names, or where `rt` leaves it.
pub fn proved(name: &str) -> PathBuf {
    let folder = env::var_os("YINQOCHA_PROGRAMS").map(PathBuf::from);
    folder.unwrap_or_else(|| Path::new(CRATES).join(name).join("out")).join(name)
}

/// Runs a program until it ends.
pub fn run(command: &mut Command, input: &[u8], feed: Feed) -> io::Result<Output> {
    command.stdin(Stdio::piped()).stdout(Stdio::piped()).stderr(Stdio::piped());
    let mut child = command.spawn()?;
    let stdin = child.stdin.take().expect("it is piped");
    thread::scope(|scope| {
        let giver = scope.spawn(move || give(stdin, input, feed));
        let output = child.wait_with_output()?;
        giver.join().expect("it ends")?;
        Ok(output)
    })
}

/// A program need not read more than it wants to know.
fn give(stdin: ChildStdin, input: &[u8], feed: Feed) -> io::Result<()> {
    match feed_whole(stdin, input, feed) {
        Err(error) if error.kind() == ErrorKind::BrokenPipe => Ok(()),
        given => given,
    }
}

fn feed_whole(mut stdin: ChildStdin, input: &[u8], feed: Feed) -> io::Result<()> {
    let Feed::Pieces(size) = feed else { return stdin.write_all(input) };
    for piece in input.chunks(size) {
        stdin.write_all(piece)?;
        thread::sleep(PAUSE);
    }
    Ok(())
}

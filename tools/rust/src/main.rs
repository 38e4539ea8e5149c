//! turn-side: the Rust beside the port. It replays a tape on the test copy of turn.rs and stun.rs.
#![allow(dead_code)]
mod calls;
mod lent;
mod listing;
mod native;
mod table;
mod tape;
mod time;

use std::io::{self, Read, Write};
use std::process::exit;

const HELP: &str = "\
turn-side replay [--many] < TAPE   the listing of document 01
turn-side trace [--many] < TAPE    the same lines, and after each call everything it did and left

  --many   standard input holds several tapes, each behind its length as four bytes, the highest
           first; before each listing stands a line `tape N`, N from 1
  --help   this text

Exit status: 0; 2 for bad usage, a container that is cut, or standard input or output that fails.
";

fn main() {
    let args: Vec<String> = std::env::args().skip(1).collect();
    let args: Vec<&str> = args.iter().map(|a| a.as_str()).collect();
    let (whole, many) = match args[..] {
        ["replay"] => (false, false),
        ["trace"] => (true, false),
        ["replay", "--many"] => (false, true),
        ["trace", "--many"] => (true, true),
        ["--help"] => {
            print!("{HELP}");
            return;
        }
        _ => {
            eprint!("{HELP}");
            exit(2);
        }
    };
    let result = if many { all(whole) } else { one(whole) };
    if let Err(e) = result {
        eprintln!("turn-side: {e}");
        exit(2);
    }
}

fn one(whole: bool) -> io::Result<()> {
    let mut out = io::stdout();
    out.write_all(listing::FIRST_LINE.as_bytes())?;
    out.flush()?;
    let mut tape = Vec::new();
    io::stdin().read_to_end(&mut tape)?;
    out.write_all(listing::listing(&tape, whole).as_bytes())?;
    out.flush()
}

fn all(whole: bool) -> io::Result<()> {
    let mut out = io::BufWriter::new(io::stdout());
    let mut input = io::BufReader::new(io::stdin());
    for n in 1.. {
        let mut length = Vec::new();
        input.by_ref().take(4).read_to_end(&mut length)?;
        if length.is_empty() {
            break;
        }
        let cut = || io::Error::new(io::ErrorKind::UnexpectedEof, format!("tape {n} is cut"));
        let length = u32::from_be_bytes(length.try_into().map_err(|_| cut())?) as u64;
        let mut tape = Vec::new();
        input.by_ref().take(length).read_to_end(&mut tape)?;
        if (tape.len() as u64) < length {
            return Err(cut());
        }
        write!(out, "tape {n}\n{}{}", listing::FIRST_LINE, listing::listing(&tape, whole))?;
    }
    out.flush()
}

//! `ccscript` over the Rust crate: runs the script on standard input and prints each answer on a line.
//!
//! Where the rule book adds a rule, the rule is applied around the crate's calls: refusals 6 to 11, the
//! sizes, the draw, the dropping of empty packets, the true count, the set of services, the cut into
//! codes with refusals 21 and 22, the part handed back, the tidy reader. Distribution packets, with
//! refusals 16 to 20, are read and written beside the crate. Its fields are private, so the operations
//! that set raw fields work on places kept beside its values (`B`, `K` and `Z`), or only tell that a
//! limit is broken (`D` and `Q`).

mod codes;
mod demux;
mod distribution;
mod machine;
mod mux;
mod raw;
mod refusal;
mod text;
mod tidy;

use std::io::{Read, Write};

use machine::{Line, Machine};

/// The record at the start of the bytes: its content and its whole length.
fn record(bytes: &[u8]) -> Option<(&[u8], usize)> {
    let [0xCC, 0x5C, len, rest @ ..] = bytes else {
        return None;
    };
    let content = rest.get(..*len as usize)?;
    Some((content, 3 + content.len()))
}

fn main() -> std::io::Result<()> {
    let mut script = vec![];
    std::io::stdin().read_to_end(&mut script)?;
    let mut out = std::io::BufWriter::new(std::io::stdout().lock());
    let (mut machine, mut at, mut count) = (Machine::fresh(), 0, 0);
    while at < script.len() {
        let Some((content, len)) = record(&script[at..]) else {
            return writeln!(out, "stopped at byte {at}");
        };
        match machine.operation(content) {
            Line::Ok(values) if values.is_empty() => writeln!(out, "ok")?,
            Line::Ok(values) => writeln!(out, "ok {values}")?,
            Line::Refused(why, rest) => writeln!(out, "refused {why}{rest}")?,
            Line::Bad => writeln!(out, "bad")?,
        }
        at += len;
        count += 1;
    }
    writeln!(out, "end {count}")
}

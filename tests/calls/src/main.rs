//! Reads `objdump -dr --no-show-raw-insn` of an archive on standard input, and judges its calls: no ring but of the functions that are
//! named for one, none of what isn't known, none that leaves the archive but to the other functions that are named. A file with what
//! `objdump -hr` prints of the same archive tells of the tables that jumps go by; without it no such jump is known.
//! usage: calls [--data FILE] [--ring NAME]... [OUTSIDE]...
//! The last line is 'no fault', or 'N faults' with a line for each above it, and the exit status is 0 or 1.

use std::env;
use std::fs;
use std::io::{self, Read};
use std::process::ExitCode;

use calls::judgement::{judge, Allowed, Judgement};
use calls::listing::Listing;
use calls::tables::Data;

fn main() -> io::Result<ExitCode> {
    let (allowed, data) = arguments(env::args().skip(1))?;
    let mut text = String::new();
    io::stdin().read_to_string(&mut text)?;
    let listing = Listing::read(&text);
    let mut judgement = judge(&listing, &data, &allowed);
    if listing.functions.is_empty() {
        judgement
            .faults
            .push("there is no function to judge".to_string());
    }
    if ![0, listing.members].contains(&data.members) {
        judgement
            .faults
            .push("the two listings are of different archives".to_string());
    }
    print(&listing, &judgement);
    Ok(match judgement.faults.len() {
        0 => {
            println!("no fault");
            ExitCode::SUCCESS
        }
        count => {
            println!("{count} faults");
            ExitCode::FAILURE
        }
    })
}

/// What the arguments allow, and the file that they name.
fn arguments(mut words: impl Iterator<Item = String>) -> io::Result<(Allowed, Data)> {
    let (mut allowed, mut data) = (Allowed::default(), Data::default());
    while let Some(word) = words.next() {
        match word.as_str() {
            "--ring" => allowed.in_rings.extend(words.next()),
            "--data" => data = Data::read(&fs::read_to_string(words.next().unwrap_or_default())?),
            _ => allowed.outside.push(word),
        }
    }
    Ok((allowed, data))
}

/// All that was found out, but for the last line.
fn print(listing: &Listing, judgement: &Judgement) {
    println!(
        "{} members, {} functions, {} calls among them",
        listing.members,
        listing.functions.len(),
        judgement.calls
    );
    for name in &judgement.on_rings {
        println!("on a ring, allowed: {name}");
    }
    if judgement.by_table > 0 {
        println!(
            "jumps that go by a table of their function: {}",
            judgement.by_table
        );
    }
    for (name, functions) in &judgement.outside {
        println!("outside, allowed: {name}, called by {functions} functions");
    }
    if !judgement.longest.is_empty() {
        println!(
            "the longest chain of calls: {}",
            judgement.longest.join(" -> ")
        );
    }
    for fault in &judgement.faults {
        println!("{fault}");
    }
}

//! A morning sheet: reads the scripts in the files that are named, feeds them one after another, and prints a page. What the page looks
//! like is this example's own. A line on standard error tells how far it is.
//!
//!     cargo run --release --example morning -- scripts/*.strip
use std::error::Error;
use std::fs::File;
use std::io::{self, Read};
use strip::{KINDS, Mean, RUST_COLORS, Refusal, Refused, TEXT_BYTES, Totals, Workspace};

fn main() -> Result<(), Box<dyn Error>> {
    let names: Vec<String> = std::env::args().skip(1).collect();
    let (mut workspace, mut totals) = (Workspace::new(), Totals::new());
    for (number, name) in names.iter().enumerate() {
        eprint!("\r{} of {}", number + 1, names.len());
        let text = script(name).map_err(|error| format!("{name}: {error}"))?;
        match workspace.feed(&mut totals, &text, RUST_COLORS) {
            Ok(Ok(())) => {}
            Ok(Err(refused)) => eprintln!("\n{name}: {refused}"),
            Err(full) => {
                eprintln!("\n{name}: {full}");
                break;
            }
        }
    }
    eprintln!();
    print_page(&totals)?;
    Ok(())
}

/// A file's bytes, of a long one no more than show that it is too long.
fn script(name: &str) -> io::Result<Vec<u8>> {
    let mut text = Vec::new();
    File::open(name)?.take(TEXT_BYTES as u64 + 1).read_to_end(&mut text)?;
    Ok(text)
}

fn print_page(totals: &Totals) -> Result<(), Refused> {
    println!("{:>10} scripts", totals.scripts());
    println!("{:>10} accepted", totals.accepted());
    for &refusal in Refusal::ALL.iter().filter(|&&refusal| totals.refused(refusal) > 0) {
        println!("{:>10} refused with {}: {refusal}", totals.refused(refusal), refusal.number());
    }
    for (kind, name) in KINDS.iter().enumerate() {
        println!("{:>10} {name}", totals.records(kind));
    }
    println!("{:>10} keyframe entries", totals.entries());
    println!("{:>10} records a script", mean(totals, Mean::RecordsPerScript)?);
    println!("{:>10} entries a track", mean(totals, Mean::EntriesPerTrack)?);
    Ok(())
}

fn mean(totals: &Totals, which: Mean) -> Result<String, Refused> {
    Ok(strip::mean(totals, which)?.map_or("none".to_string(), |fraction| fraction.to_string()))
}

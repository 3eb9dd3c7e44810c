//! The page as text.
use super::Page;
use std::fmt::Write;
use strip::Fraction;

pub fn page(page: &Page) -> String {
    let mut text = String::new();
    let mut line = |figure: String, what: &str| writeln!(text, "{figure:>10} {what}").expect("a string takes all");
    line(page.totals.scripts().to_string(), "scripts");
    line(page.totals.accepted().to_string(), "accepted");
    for (refusal, scripts) in page.causes() {
        line(scripts.to_string(), &format!("refused with {} {}: {refusal}", refusal.number(), refusal.name()));
    }
    for (keyword, records) in page.kinds() {
        line(records.to_string(), keyword);
    }
    line(page.totals.entries().to_string(), "keyframe entries");
    line(page.colors.to_string(), "list of colours");
    line(mean(page.records_per_script), "records a script");
    line(mean(page.entries_per_track), "entries a track");
    if !page.uncounted.is_empty() {
        line(page.uncounted.len().to_string(), "files not counted");
    }
    for script in &page.refused {
        let place = script.place.map_or(String::new(), |place| format!(":{}:{}", place.line, place.column));
        let refusal = script.refused.refusal;
        writeln!(text, "{}{place}: {} {}: {refusal}", script.name, refusal.number(), refusal.name()).expect("a string takes all");
    }
    text
}

fn mean(mean: Option<Fraction>) -> String {
    mean.map_or("none".to_string(), |fraction| fraction.to_string())
}

//! The page as HTML: one file, with its style, without scripts.
use super::{Page, RefusedScript};
use std::fmt::Write;
use strip::Fraction;

const STYLE: &str = include_str!("style.css");

pub fn page(page: &Page) -> String {
    let mut html = format!(
        "<!DOCTYPE html>\n<html lang=\"en\">\n<head>\n<meta charset=\"utf-8\">\n\
         <meta name=\"viewport\" content=\"width=device-width, initial-scale=1\">\n\
         <title>Morning sheet</title>\n<style>\n{STYLE}</style>\n</head>\n<body>\n<h1>Morning sheet</h1>\n"
    );
    html.push_str(&figures(page));
    html.push_str(&causes(page));
    html.push_str(&kinds(page));
    html.push_str(&refused_scripts(page));
    html.push_str(&uncounted(page));
    html.push_str("</body>\n</html>\n");
    html
}

/// The figures of the whole, each in a box.
fn figures(page: &Page) -> String {
    let totals = &page.totals;
    let refused = totals.scripts() - u64::from(totals.accepted());
    let figures = [
        ("scripts", "Scripts", totals.scripts().to_string()),
        ("accepted", "Accepted", totals.accepted().to_string()),
        ("refused", "Refused", refused.to_string()),
        ("uncounted", "Files not counted", page.uncounted.len().to_string()),
        ("entries", "Keyframe entries", totals.entries().to_string()),
        ("records-per-script", "Records a script", mean(page.records_per_script)),
        ("entries-per-track", "Entries a track", mean(page.entries_per_track)),
        ("colors", "List of colours", page.colors.to_string()),
    ];
    let boxes = figures.iter().map(|(id, what, figure)| format!("<div><dt>{what}</dt><dd id=\"{id}\">{figure}</dd></div>\n"));
    format!("<dl>\n{}</dl>\n", boxes.collect::<String>())
}

/// A mean as a decimal number of two places, and as the fraction that it is.
fn mean(mean: Option<Fraction>) -> String {
    match mean {
        None => "none".to_string(),
        Some(fraction) if fraction.denominator == 1 => fraction.numerator.to_string(),
        Some(fraction) => {
            format!("{:.2} <small>({fraction})</small>", f64::from(fraction.numerator) / f64::from(fraction.denominator))
        }
    }
}

/// The head of a table, which stands on each page in print.
fn head(cells: &str) -> String {
    format!("<thead>\n<tr>{cells}</tr>\n</thead>\n")
}

/// A table of figures with bars, the longest for the largest figure.
fn bars(id: &str, what: &str, rows: &[(String, u32)]) -> String {
    let largest = rows.iter().map(|row| row.1).max().unwrap_or(0).max(1);
    let mut table = format!("<table id=\"{id}\">\n{}", head(&format!("<th>{what}</th><th class=\"figure\">Count</th><th></th>")));
    for (name, figure) in rows {
        let bar = match figure {
            0 => String::new(),
            _ => format!("<span style=\"width:{:.1}%\"></span>", 100.0 * f64::from(*figure) / f64::from(largest)),
        };
        writeln!(table, "<tr><td>{name}</td><td class=\"figure\">{figure}</td><td class=\"bar\">{bar}</td></tr>")
            .expect("a string takes all");
    }
    table.push_str("</table>\n");
    table
}

fn causes(page: &Page) -> String {
    let rows: Vec<(String, u32)> = page
        .causes()
        .map(|(refusal, scripts)| (escaped(&format!("{} {}: {refusal}", refusal.number(), refusal.name())), scripts))
        .collect();
    match rows.is_empty() {
        true => "<h2>Refused scripts by cause</h2>\n<p>None.</p>\n".to_string(),
        false => format!("<h2>Refused scripts by cause</h2>\n{}", bars("causes", "Cause", &rows)),
    }
}

fn kinds(page: &Page) -> String {
    let rows: Vec<(String, u32)> = page.kinds().map(|(keyword, records)| (keyword.to_string(), records)).collect();
    format!("<h2>Records of accepted scripts by kind</h2>\n{}", bars("kinds", "Kind", &rows))
}

fn refused_scripts(page: &Page) -> String {
    if page.refused.is_empty() {
        return String::new();
    }
    let row = |script: &RefusedScript| {
        let place = script.place.map_or(String::new(), |place| format!("{}:{}", place.line, place.column));
        let refusal = script.refused.refusal;
        format!(
            "<tr><td class=\"file\">{}</td><td class=\"figure\">{place}</td><td>{} {}</td></tr>\n",
            escaped(&script.name),
            refusal.number(),
            refusal.name()
        )
    };
    let head = head("<th>File</th><th class=\"figure\">Line:column</th><th>Cause</th>");
    let rows: String = page.refused.iter().map(row).collect();
    format!("<h2>Refused scripts</h2>\n<table id=\"refused-scripts\">\n{head}{rows}</table>\n")
}

fn uncounted(page: &Page) -> String {
    if page.uncounted.is_empty() {
        return String::new();
    }
    let row = |(name, reason): (String, String)| format!("<tr><td class=\"file\">{name}</td><td>{reason}</td></tr>\n");
    let rows: String = page.uncounted.iter().map(|each| row((escaped(&each.name), escaped(&each.reason)))).collect();
    let head = head("<th>File</th><th>Reason</th>");
    format!("<h2>Files not counted</h2>\n<table id=\"not-counted\">\n{head}{rows}</table>\n")
}

/// A text with the characters escaped that HTML gives a meaning.
fn escaped(text: &str) -> String {
    text.replace('&', "&amp;").replace('<', "&lt;").replace('>', "&gt;").replace('"', "&quot;")
}

//! `wave`: one period of a waveform, on the terminal and as SVG.
use crate::arguments::{Kind, Wave};
use crate::status::Status;
use crate::{diagnostic, output};
use std::path::Path;
use strip::WAVE_HEIGHTS;

/// The terminal's drawing: a column for every 4th height, 8 rows on each side of the middle.
const STEP: usize = 4;
const ROWS: i32 = 8;
/// The greatest height.
const PEAK: i32 = 32_767;

pub fn run(wave: &Wave) -> Result<Status, String> {
    let mut heights = [0; WAVE_HEIGHTS];
    let name = name(wave.kind);
    if let Err(refused) = strip::wave(wave.kind as u32, wave.phase, &mut heights) {
        diagnostic::show(&format!("{name}, phase {}", wave.phase), b"", &refused, None);
        return Ok(Status::Refused);
    }
    if let Some(path) = &wave.svg {
        output::put(path, svg(name, wave.phase, &heights).as_bytes())?;
    }
    // standard output takes one of the two
    if wave.svg.as_deref() != Some(Path::new("-")) {
        output::print(drawing(&heights).as_bytes())?;
    }
    Ok(Status::Accepted)
}

fn name(kind: Kind) -> &'static str {
    match kind {
        Kind::Sine => "sine",
        Kind::Sawtooth => "sawtooth",
        Kind::Square => "square",
        Kind::Triangle => "triangle",
        Kind::Noise => "noise",
    }
}

/// The row of a height, from `ROWS` at the peak to `-ROWS`.
fn row(height: i16) -> i32 {
    let scaled = i32::from(height) * ROWS;
    (scaled + scaled.signum() * PEAK / 2) / PEAK
}

fn drawing(heights: &[i16]) -> String {
    let columns: Vec<i32> = heights.iter().step_by(STEP).map(|&height| row(height)).collect();
    let mut drawing = String::new();
    for line in (-ROWS..=ROWS).rev() {
        let mark = |&column: &i32| match (column == line, line) {
            (true, _) => '*',
            (false, 0) => '-',
            _ => ' ',
        };
        let marks: String = columns.iter().map(mark).collect();
        drawing.push_str(marks.trim_end());
        drawing.push('\n');
    }
    drawing
}

/// An SVG of 512 by 256; the first height stands again behind the last, so that a whole period is drawn.
fn svg(name: &str, phase: u32, heights: &[i16]) -> String {
    let point = |(step, &height): (usize, &i16)| format!("{},{:.2}", 2 * step, 128.0 - 120.0 * f64::from(height) / f64::from(PEAK));
    let points: Vec<String> = heights.iter().chain(heights.first()).enumerate().map(point).collect();
    [
        r#"<svg xmlns="http://www.w3.org/2000/svg" width="512" height="256" viewBox="0 0 512 256">"#,
        &format!("<title>{name}, phase {phase} of 256</title>"),
        r##"<rect width="512" height="256" fill="#ffffff"/>"##,
        r##"<path d="M 0 128 H 512" stroke="#808080"/>"##,
        &format!(r##"<polyline points="{}" fill="none" stroke="#000000" stroke-width="2"/>"##, points.join(" ")),
        "</svg>\n",
    ]
    .join("\n")
}

#[cfg(test)]
mod tests {
    use super::*;

    #[test]
    fn rows_are_the_nearest() {
        assert_eq!([row(32_767), row(0), row(-32_767), row(2_047), row(2_048), row(-2_048)], [8, 0, -8, 0, 1, -1]);
    }
}

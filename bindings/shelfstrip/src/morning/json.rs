//! The page as JSON.
use super::{Page, RefusedScript};
use serde_json::{Map, Value, json};
use strip::Fraction;

pub fn page(page: &Page) -> String {
    let causes: Vec<Value> = page
        .causes()
        .map(|(refusal, scripts)| {
            json!({ "number": refusal.number(), "name": refusal.name(), "cause": refusal.cause(), "scripts": scripts })
        })
        .collect();
    let records: Map<String, Value> = page.kinds().map(|(keyword, records)| (keyword.to_string(), json!(records))).collect();
    let uncounted: Vec<Value> = page.uncounted.iter().map(|each| json!({ "file": each.name, "reason": each.reason })).collect();
    let value = json!({
        "colors": page.colors,
        "scripts": page.totals.scripts(),
        "accepted": page.totals.accepted(),
        "refused": causes,
        "records": records,
        "entries": page.totals.entries(),
        "records_per_script": mean(page.records_per_script),
        "entries_per_track": mean(page.entries_per_track),
        "refused_scripts": page.refused.iter().map(script).collect::<Vec<Value>>(),
        "not_counted": uncounted,
    });
    format!("{value:#}\n")
}

/// A refused script; line and column are null where the refusal has no place in the text.
fn script(script: &RefusedScript) -> Value {
    json!({
        "file": script.name,
        "number": script.refused.refusal.number(),
        "name": script.refused.refusal.name(),
        "line": script.place.map(|place| place.line),
        "column": script.place.map(|place| place.column),
    })
}

fn mean(mean: Option<Fraction>) -> Value {
    mean.map_or(Value::Null, |fraction| json!({ "numerator": fraction.numerator, "denominator": fraction.denominator }))
}

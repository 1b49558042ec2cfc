//! What is the same for all cases: the judge.

use serde::de::DeserializeOwned;
use serde::Serialize;
use serde_json::Value;

fn said<T: Serialize, E: std::fmt::Display>(read: Result<T, E>) -> Value {
    let value = match read {
        Ok(value) => value,
        Err(error) => return serde_json::json!({ "refused": error.to_string() }),
    };
    let written = serde_json::to_value(&value);
    let text = serde_json::to_string(&value);
    match (written, text) {
        (Ok(written), Ok(text)) if serde_json::from_str::<Value>(&text).unwrap() == written => {
            serde_json::json!({ "taken": written })
        }
        (written, text) => serde_json::json!({ "unwritten": format!("{written:?} {text:?}") }),
    }
}

/// What the type makes of a value: read from its text, and read from serde_json's `Value`.
pub fn judge<T: Serialize + DeserializeOwned>(text: &str) -> Value {
    let by_text = said(serde_json::from_str::<T>(text));
    let by_value = said(serde_json::from_value::<T>(serde_json::from_str(text).unwrap()));
    serde_json::json!([by_text, by_value])
}

/// Each line of standard input is a number of a case and a value, with a tab between; each line that is printed answers one.
pub fn answer_all(judged: fn(usize, &str) -> Value) {
    for line in std::io::stdin().lines() {
        let line = line.unwrap();
        let (case, text) = line.split_once('\t').unwrap();
        println!("{}", judged(case.parse().unwrap(), text));
    }
}

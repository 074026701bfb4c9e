//! What `xds answer` does, as a plain program on serde_json and std's maps would do it: a peer for bench/load/answer.py.
//!
//! It reads stamped writes, a line each, and a DiscoveryRequest on the last line, keeps the greatest write of each
//! name, and writes the response with all that the request names. It looks at what bench/load/answer.py makes and refuses
//! nothing by number.
use serde_json::{json, Map, Value};
use std::collections::BTreeMap;
use std::io::{Read, Write};

struct Held {
    counter: u64,
    writer: u64,
    body: Option<String>,
}

pub fn depth(value: &Value) -> usize {
    match value {
        Value::Array(items) => 1 + items.iter().map(depth).max().unwrap_or(0),
        Value::Object(members) => 1 + members.values().map(depth).max().unwrap_or(0),
        _ => 0,
    }
}

pub fn is_whole(value: &Value) -> bool {
    match value {
        Value::Array(items) => items.iter().all(is_whole),
        Value::Object(members) => members.values().all(is_whole),
        Value::Number(number) => number.is_i64() || number.is_u64(),
        _ => true,
    }
}

pub fn main() {
    let mut input = Vec::new();
    std::io::stdin().read_to_end(&mut input).unwrap();
    if input.last() == Some(&b'\n') {
        input.pop();
    }
    let mut types: BTreeMap<String, (u64, BTreeMap<String, Held>)> = BTreeMap::new();
    let lines: Vec<&[u8]> = input.split(|byte| *byte == b'\n').collect();
    let (last, writes) = lines.split_last().unwrap();
    for line in writes {
        let mut write: Value = serde_json::from_slice(line).unwrap();
        let url = write["typeUrl"].as_str().unwrap().to_string();
        let name = write["name"].as_str().unwrap().to_string();
        let (counter, writer) = (write["counter"].as_u64().unwrap(), write["writer"].as_u64().unwrap());
        let body = match write["body"].take() {
            Value::Null => None,
            body => {
                assert!(
                    is_whole(&body)
                        && depth(&body) <= 100
                        && body["@type"] == url.as_str()
                        && body["name"] == name.as_str()
                );
                let text = serde_json::to_string(&body).unwrap();
                assert!(text.len() <= 1_048_576);
                Some(text)
            }
        };
        let (changes, held) = types.entry(url).or_default();
        let is_news = match held.get(&name) {
            Some(had) => (had.counter, had.writer, &had.body) < (counter, writer, &body),
            None => true,
        };
        if is_news {
            held.insert(name, Held { counter, writer, body });
            *changes += 1;
        }
    }
    let request: Map<String, Value> = serde_json::from_slice(last).unwrap();
    let url = request["typeUrl"].as_str().unwrap();
    let (changes, held) = types.remove(url).unwrap_or_default();
    let mut output = String::new();
    output.push_str("{\"nonce\":\"1\"");
    let mut separator = ",\"resources\":[";
    for body in held.values().filter_map(|held| held.body.as_ref()) {
        output.push_str(separator);
        output.push_str(body);
        separator = ",";
    }
    if separator == "," {
        output.push(']');
    }
    output.push_str(&format!(",\"typeUrl\":{},\"versionInfo\":\"1.{changes}\"}}\n", json!(url)));
    std::io::stdout().write_all(output.as_bytes()).unwrap();
}

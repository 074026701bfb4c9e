//! A request of a client, read from the text of its frame.
use crate::catalogue::TYPES;
use serde_json::{Map, Value};

pub struct Request {
    /// Which of the types it is of, or none where it is none of them.
    pub kind: Option<usize>,
    pub nonce: String,
    pub is_error: bool,
    pub names: Names,
}

pub enum Names {
    Listed(Vec<String>),
    Changed { subscribed: Vec<String>, unsubscribed: Vec<String>, versions: Vec<(String, String)> },
}

/// A field by either spelling: the first counts where both stand.
fn field<'a>(message: &'a mut Map<String, Value>, camel: &str, snake: &str) -> Value {
    let found = if message.contains_key(camel) { message.get_mut(camel) } else { message.get_mut(snake) };
    found.map_or(Value::Null, Value::take)
}

fn text(value: Value) -> Option<String> {
    match value {
        Value::Null => Some(String::new()),
        Value::String(text) => Some(text),
        _ => None,
    }
}

fn texts(value: Value) -> Option<Vec<String>> {
    match value {
        Value::Null => Some(Vec::new()),
        Value::Array(items) => items.into_iter().map(|item| if item.is_null() { None } else { text(item) }).collect(),
        _ => None,
    }
}

fn versions(value: Value) -> Option<Vec<(String, String)>> {
    match value {
        Value::Null => Some(Vec::new()),
        Value::Object(of) => {
            of.into_iter().map(|(name, at)| if at.is_null() { None } else { Some((name, text(at)?)) }).collect()
        }
        _ => None,
    }
}

/// The request of a frame's text, or none where it is none.
pub fn read(is_delta: bool, bytes: &[u8]) -> Option<Request> {
    let Value::Object(mut message) = serde_json::from_slice(bytes).ok()? else { return None };
    let url = text(field(&mut message, "typeUrl", "type_url"))?;
    if url.is_empty() {
        return None;
    }
    let nonce = text(field(&mut message, "responseNonce", "response_nonce"))?;
    let is_error = match field(&mut message, "errorDetail", "error_detail") {
        Value::Null => false,
        Value::Object(_) => true,
        _ => return None,
    };
    let names = if is_delta {
        Names::Changed {
            subscribed: texts(field(&mut message, "resourceNamesSubscribe", "resource_names_subscribe"))?,
            unsubscribed: texts(field(&mut message, "resourceNamesUnsubscribe", "resource_names_unsubscribe"))?,
            versions: versions(field(&mut message, "initialResourceVersions", "initial_resource_versions"))?,
        }
    } else {
        Names::Listed(texts(field(&mut message, "resourceNames", "resource_names"))?)
    };
    Some(Request { kind: TYPES.iter().position(|it| it.url == url), nonce, is_error, names })
}

//! Polls of clusters over HTTP, answered by hyper on one thread, as `xds serve` answers them. It proves nothing, refuses nothing by
//! number and knows one type and no groups; it keeps bodies as text, in order of names, and puts a response together for each poll.
//!
//!     plain_rest serve --rest-port PORT    lines `put 1 BODY` on the input, until it ends
use hyper::server::conn::Http;
use hyper::service::service_fn;
use hyper::{Body, Method, Request, Response, StatusCode};
use serde_json::Value;
use std::collections::BTreeMap;
use std::convert::Infallible;
use std::io::BufRead;
use std::sync::{Arc, Mutex};
use tokio::net::TcpListener;

const PATH: &str = "/v3/discovery:clusters";
const URL: &str = "type.googleapis.com/envoy.config.cluster.v3.Cluster";
const MAX_BODY: u64 = 4_194_304;

#[derive(Default)]
struct Catalogue {
    bodies: BTreeMap<String, Box<str>>,
    changes: u64,
}

type Shared = Arc<Mutex<Catalogue>>;

fn put(shared: &Shared, body: &str) -> Option<()> {
    let body: Value = serde_json::from_str(body).ok()?;
    let name = body.get("name")?.as_str()?.to_owned();
    let mut catalogue = shared.lock().unwrap();
    catalogue.bodies.insert(name, body.to_string().into());
    catalogue.changes += 1;
    Some(())
}

/// A field under its name in either spelling.
fn field<'a>(asked: &'a Value, camel: &str, snake: &str) -> Option<&'a Value> {
    asked.get(camel).or_else(|| asked.get(snake))
}

/// The body of the response to a poll, or the status that it has without one.
fn answer(shared: &Shared, asked: &[u8]) -> Result<String, StatusCode> {
    let asked: Value = serde_json::from_slice(asked).map_err(|_| StatusCode::BAD_REQUEST)?;
    let names: Vec<&str> = match field(&asked, "resourceNames", "resource_names") {
        Some(Value::Array(names)) => names.iter().filter_map(Value::as_str).collect(),
        Some(_) => return Err(StatusCode::BAD_REQUEST),
        None => Vec::new(),
    };
    let has = field(&asked, "versionInfo", "version_info").and_then(Value::as_str);
    let catalogue = shared.lock().unwrap();
    let version = format!("1.{}{}", catalogue.changes, if names.is_empty() { "" } else { ".named" });
    if has == Some(&version) {
        return Err(StatusCode::NOT_MODIFIED);
    }
    let mut text = String::from("{\"resources\":[");
    let mut add = |body: &str| {
        if !text.ends_with('[') {
            text.push(',');
        }
        text.push_str(body);
    };
    if names.is_empty() {
        catalogue.bodies.values().for_each(|body| add(body));
    } else {
        names.iter().filter_map(|name| catalogue.bodies.get(*name)).for_each(|body| add(body));
    }
    text.push_str("],\"typeUrl\":\"");
    text.push_str(URL);
    text.push_str("\",\"versionInfo\":\"");
    text.push_str(&version);
    text.push_str("\"}");
    Ok(text)
}

fn bare(status: StatusCode) -> Response<Body> {
    let mut response = Response::new(Body::empty());
    *response.status_mut() = status;
    response
}

async fn respond(shared: Shared, request: Request<Body>) -> Result<Response<Body>, Infallible> {
    if request.uri().path() != PATH {
        return Ok(bare(StatusCode::NOT_FOUND));
    }
    if request.method() != Method::POST {
        return Ok(bare(StatusCode::METHOD_NOT_ALLOWED));
    }
    if hyper::body::HttpBody::size_hint(request.body()).lower() > MAX_BODY {
        return Ok(bare(StatusCode::PAYLOAD_TOO_LARGE));
    }
    let Ok(body) = hyper::body::to_bytes(request.into_body()).await else {
        return Ok(bare(StatusCode::BAD_REQUEST));
    };
    Ok(match answer(&shared, &body) {
        Ok(text) => {
            let mut response = Response::new(Body::from(text));
            response.headers_mut().insert("content-type", "application/json".parse().unwrap());
            response
        }
        Err(status) => bare(status),
    })
}

async fn serve(shared: Shared, port: u16) {
    let listener = TcpListener::bind(("127.0.0.1", port)).await.unwrap();
    loop {
        let Ok((stream, _)) = listener.accept().await else { continue };
        stream.set_nodelay(true).unwrap();
        let shared = shared.clone();
        tokio::task::spawn_local(async move {
            let service = service_fn(move |request| respond(shared.clone(), request));
            let _ = Http::new().http1_only(true).serve_connection(stream, service).await;
        });
    }
}

fn main() {
    let words: Vec<String> = std::env::args().collect();
    let port = words.iter().position(|word| word == "--rest-port").and_then(|place| words.get(place + 1)).unwrap();
    let port = port.parse().unwrap();
    let shared = Shared::default();
    let reader = shared.clone();
    std::thread::spawn(move || {
        for line in std::io::stdin().lock().lines().map_while(Result::ok) {
            line.strip_prefix("put 1 ").and_then(|body| put(&reader, body));
        }
    });
    let runtime = tokio::runtime::Builder::new_current_thread().enable_io().build().unwrap();
    tokio::task::LocalSet::new().block_on(&runtime, serve(shared, port));
}

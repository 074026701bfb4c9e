//! Plain Rust programs that prove nothing, to compare `xds` with. `plain answer` is the peer of bench/load/answer.py, and
//! `plain serve` that of bench/load/fanout.py.
mod answer;
mod catalogue;
mod index;
mod request;
mod serve;
mod session;

fn main() {
    let words: Vec<String> = std::env::args().skip(1).collect();
    match words.first().map(String::as_str) {
        Some("serve") => serve::main(&words[1..]),
        _ => answer::main(),
    }
}

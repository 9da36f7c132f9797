//! The commands of the line protocol, by crate of the port. A name that ends in `_port` is answered
//! as the port states it, any other by the original.

pub mod alphabet;
pub mod captures;
pub mod look;
pub mod primitives;
pub mod search;

/// The answer to a command line.
pub fn answer(line: &str) -> String {
    let tokens: Vec<&str> = line.split(' ').collect();
    let (name, args) = (tokens[0], &tokens[1..]);
    let (name, port) = match name.strip_suffix("_port") {
        Some(name) => (name, true),
        None => (name, false),
    };
    // Names are distinct, so at most one module has an answer.
    let modules =
        [primitives::answer, alphabet::answer, look::answer, search::answer, captures::answer];
    modules
        .iter()
        .find_map(|module| module(name, port, args).ok())
        .unwrap_or_else(|| "bad command".to_string())
}

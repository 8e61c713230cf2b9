//! How much a test does.

/// How many times more a long run does.
const LONG: u64 = 50;

/// The ordinary number, or fifty times as many with `TM_LONG=1`.
pub fn cases(ordinary: u64) -> u64 {
    match std::env::var("TM_LONG").as_deref() {
        Err(_) | Ok("" | "0") => ordinary,
        Ok("1") => ordinary * LONG,
        Ok(other) => panic!("TM_LONG is 1 or not set, not {other:?}"),
    }
}

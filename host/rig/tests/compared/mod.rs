//! What the tests that compare two implementations share.

use kalebasin_rig::suite::Compared;

/// The seed of the random parts; KALEBASIN_SEED chooses another.
pub fn seed() -> u64 {
    std::env::var("KALEBASIN_SEED").map_or(2026, |seed| seed.parse().expect("KALEBASIN_SEED is a number"))
}

/// Asks that no difference was found.
pub fn same(what: &str, compared: Compared) {
    match compared {
        Ok(calls) => println!("{what}: {calls} calls compared"),
        Err(report) => panic!("{what}: {report}"),
    }
}

//! What a test or a program takes from its environment.

use std::env;

/// The decimal number in a variable, or a default where it is not set.
pub fn number_from_env(name: &str, default: u64) -> u64 {
    match env::var(name) {
        Err(env::VarError::NotPresent) => default,
        Ok(text) => text
            .parse()
            .unwrap_or_else(|_| panic!("{name} is {text:?}, which is not a decimal number")),
        Err(error) => panic!("{name}: {error}"),
    }
}

/// As [`number_from_env`], for a number of things to be compared: 0 would compare nothing,
/// and a test that does so has to fail.
pub fn count_from_env(name: &str, default: u64) -> u64 {
    let count = number_from_env(name, default);
    assert!(count > 0, "{name} is 0: nothing would be compared");
    count
}

//! What the tests share.
use testing::comparison::Compared;

/// The result of a comparison; a difference ends the test and prints the case.
pub fn held<T>(compared: Compared<T>) -> T {
    compared.unwrap_or_else(|case| panic!("{case}"))
}

//! Benchmarks, printed as tables.
//!
//!     bench [--rounds N] [--svg FILE]
fn main() {
    dezhavin::report::main(None);
}

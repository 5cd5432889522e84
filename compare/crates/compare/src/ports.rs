//! The ports under comparison, beside the published pass and the reference.

use case::Port;

/// Each is to answer every case as the reference does, handle numbers and
/// refusals included.
pub fn ports() -> Vec<Box<dyn Port>> {
    vec![Box::new(port::Hufalimpy::new())]
}

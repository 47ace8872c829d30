//! The project's static library as C sees it, by the project's own wrapper: three calls with an answer of one C word, and two
//! with an answer of four numbers.

// The wrapper's enums are not compared.
#[allow(dead_code)]
#[path = "../wrapper/cerrundix.rs"]
mod wrapper;

pub use wrapper::calls::*;

#[link(name = "cerrundix", kind = "static")]
extern "C" {}

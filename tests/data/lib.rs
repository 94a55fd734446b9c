//! Each call of the libraries of data, payloads and messages that go in pieces on its happy path, worked rows, and what
//! is refused.

#[cfg(test)]
mod datatypes_tests;
#[cfg(test)]
mod float_texts_tests;
#[cfg(test)]
mod floats_tests;
#[cfg(test)]
mod payload_tests;
#[cfg(test)]
mod pieces_tests;
#[cfg(test)]
mod transfers_tests;

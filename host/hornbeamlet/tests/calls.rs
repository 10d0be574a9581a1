//! Every line of the vectors' calls put to the library: answers and whole
//! rooms as a third program wrote them down.

#![forbid(unsafe_code)]

mod common;

use common::Proved;
use hornbeamlet::with_library;
use reference::calls::answers_as_stored;

#[test]
fn every_call_is_answered_as_written() {
    with_library(|library| answers_as_stored(&Proved(library)));
}

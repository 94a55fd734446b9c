//! The laws of the definitions.

use perfect_queues::definitions_hold_together;

#[test]
fn laws_return() {
    definitions_hold_together();
}

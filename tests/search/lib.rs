//! Searches beside searches that keep every state and know no rule: over rows of moves, and over the states of ranks.

#[cfg(test)]
mod message_worlds;
#[cfg(test)]
mod search_tests;
#[cfg(test)]
mod visit_tests;
#[cfg(test)]
mod worlds;

//! Tests of one rank's engine and of two ranks': worked rows, limits, how long a frame waits, and probes; datagrams that
//! were cut, or of which one byte is another one; payloads of collectives that are too long for a frame; what a world
//! shows of what happened in it; and the loop of a running rank over transports in memory. What files of events can show
//! as well stands as rows of `mpisim_cases`.

#[cfg(test)]
mod announced_tests;
#[cfg(test)]
mod changed_tests;
#[cfg(test)]
mod cut_tests;
#[cfg(test)]
mod driving_tests;
#[cfg(test)]
mod engine_rows_tests;
#[cfg(test)]
mod entering;
#[cfg(test)]
mod fault_tests;
#[cfg(test)]
mod limit_tests;
#[cfg(test)]
mod pairs;
#[cfg(test)]
mod probe_tests;
#[cfg(test)]
mod row_tests;
#[cfg(test)]
mod samples;
#[cfg(test)]
mod two_ranks;
#[cfg(test)]
mod two_steps;
#[cfg(test)]
mod world_steps;
#[cfg(test)]
mod world_tests;

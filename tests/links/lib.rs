//! Each call of the libraries below an engine's links on its happy path, and worked rows.

#[cfg(test)]
mod acknowledgement_tests;
#[cfg(test)]
mod incarnation_tests;
#[cfg(test)]
mod reliable_link_tests;
#[cfg(test)]
mod round_trip_tests;
#[cfg(test)]
mod sessions_tests;

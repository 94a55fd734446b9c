//! Each call of the libraries of queues and requests on its happy path, the two forms of a receiver's queues side by
//! side, worked groups, contexts and splits; and each call on the communicators of a rank, the rules that it breaks,
//! groups that are shared, what refuses or ends a collective, and what a rank inside a tree tells.

#[cfg(test)]
mod collective_tests;
#[cfg(test)]
mod context_agreement_tests;
#[cfg(test)]
mod entering_tests;
#[cfg(test)]
mod groups_tests;
#[cfg(test)]
mod match_queues_tests;
#[cfg(test)]
mod members_tests;
#[cfg(test)]
mod naming_tests;
#[cfg(test)]
mod plain_queues;
#[cfg(test)]
mod plain_queues_tests;
#[cfg(test)]
mod ranks;
#[cfg(test)]
mod requests_tests;
#[cfg(test)]
mod rules_tests;
#[cfg(test)]
mod tree_tests;

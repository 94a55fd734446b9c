//! Each call of the lowest libraries on its happy path, worked rows, the words of the launcher and of a rank; and rows of
//! what lines spell, of what files of events and scripts say, of tables of names, and of the texts of answers.

#[cfg(test)]
mod answer_tests;
#[cfg(test)]
mod datagram_tests;
#[cfg(test)]
mod event_files_tests;
#[cfg(test)]
mod fault_tests;
#[cfg(test)]
mod frame_tests;
#[cfg(test)]
mod launch_tests;
#[cfg(test)]
mod launch_told_tests;
#[cfg(test)]
mod line_tests;
#[cfg(test)]
mod name_table_tests;
#[cfg(test)]
mod perfect_queues_tests;
#[cfg(test)]
mod rows;
#[cfg(test)]
mod script_files_tests;
#[cfg(test)]
mod settings_tests;
#[cfg(test)]
mod vocabulary_tests;

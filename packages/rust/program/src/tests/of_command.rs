// Made from crates/aeadkit/src/tests/of_command.rt by tools/erase: not to be edited.
//! The program, over files in memory and files of the system.
mod check;
mod failing_files;
mod refused_memory;
mod scripted_files;
mod sealing;
mod standard_streams;
mod system_files;
mod words;

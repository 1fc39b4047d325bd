//! The program as people use it: its files, its output, its exit status.

mod build;
mod check;
mod cut;
mod document;
mod edition;
mod explain;
mod fixtures;
mod flat;
mod full;
mod index;
mod join;
mod json;
mod linked;
mod list;
mod profile;
mod replay;
mod report;
mod restore;
mod run;
mod scenes;
mod small;
mod terminal;
mod trace;
mod usage;
mod version_1;
mod written;

//! A seeded generator of trees, their files and texts, runs of calls and their logs, damaged ones among them.

mod bursts;
mod cases;
mod damage;
mod dice;
mod logs;
mod logtexts;
mod long;
mod runs;
mod text;
mod trees;
mod treetexts;

pub use bursts::{script, scripts_by_hand, stored_scripts, Script};
pub use cases::{by_hand, case, corpus, edges, framed, longs, more_by_hand, more_texts, sort_of_answer, texts, Case};
pub use damage::damaged_file;
pub use dice::Dice;
pub use logs::{log, log_case, Log, LogCase};
pub use logtexts::{log_corpus, log_scripts, logs_by_hand};
pub use long::{long_file, long_files};
pub use runs::{disciplined_run, late_run, loose_run, same_tick_run, Run};
pub use trees::{random_curve, random_tree, tree_a};
pub use treetexts::{text_case, text_corpus, TextCase};

#[cfg(test)]
mod tests;

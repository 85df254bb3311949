//! Runs whose tables are small, and whose counters are near their ends.

mod clients;
mod counters;
mod events;
mod history;
mod run;
mod times;
mod violations;

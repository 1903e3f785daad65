//! Refusal 2 run: states that break one rule are lent to every call of either end. Each call answers 2 and touches nothing; at the limit of a rule none
//! answers 2. A script cannot hand in such states.

mod cache;
mod cache_columns;
mod cache_request;
mod rule;
mod server;
mod server_firsts;
mod server_plan;
mod server_row;
mod server_rust;
mod server_texts;
mod server_values;
mod table;
mod texts;

pub fn hold() {
    println!("Refusal 2. A line: a rule (RULES; D: DECISIONS), what each call answers where it is");
    println!("broken, how many states break it, how many just keep it.");
    let sign = server::hold();
    let panel = cache::hold();
    let tables = table::hold();
    println!("{sign} states of the sign, {panel} of the panel, {tables} access tables");
    println!("{} states, each gets 2 at every call, nothing touched", sign + panel + tables);
}

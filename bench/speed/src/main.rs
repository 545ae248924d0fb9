// The proved worksheet against two baselines, on the same inputs, in one run.
mod arithmetic;
mod comparing;
mod growth;
mod inputs;
mod ours;
mod pattern;
mod plain;
mod refusals;
mod steps;
mod table;
mod timing;
mod tuned;

fn main() {
    match std::env::args().nth(1).as_deref() {
        None => table::print(),
        Some("growth") => growth::print(),
        Some("steps") => steps::print(),
        Some("profile") => table::profile(std::env::args().nth(2).as_deref().unwrap_or("lines")),
        Some(_) => {
            eprintln!("usage: speed [growth | steps | profile lines|refill|border|remainder [65521-64|65521-40|8-64]]");
            std::process::exit(2);
        }
    }
}

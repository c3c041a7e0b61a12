//! `compare SEED FILES DAYS LISTINGS EXTRACTS TRAYS STRIPS RECEIVED SHOWN COMPANIES`: both programs on generated input, until they differ.

use std::process::ExitCode;

mod jobs;

fn main() -> ExitCode {
    let arguments = std::env::args().skip(1).map(|argument| argument.parse());
    let arguments: Result<Vec<u64>, _> = arguments.collect();
    match arguments.as_deref() {
        Ok(&[seed, files, days, listings, extracts, trays, strips, received, shown, companies]) => {
            let cases = [
                files, days, listings, extracts, trays, strips, received, shown, companies,
            ];
            if jobs::run_all(seed, cases) {
                ExitCode::SUCCESS
            } else {
                ExitCode::FAILURE
            }
        }
        _ => {
            eprintln!(
                "usage: compare SEED FILES DAYS LISTINGS EXTRACTS TRAYS STRIPS RECEIVED SHOWN COMPANIES"
            );
            ExitCode::from(2)
        }
    }
}

//! The jobs that both programs do, one after the other.

mod companies;
mod counters;
mod counting;
mod days;
mod details;
mod extracts;
mod fields;
mod form;
mod job;
// A table: its rows keep to their lines.
#[rustfmt::skip]
mod least;
mod listings;
mod readings;
mod received;
mod round_trips;
mod running;
mod sharing;
mod showing;
mod shown;
mod strips;
mod trays;
mod writing;

use running::run;

/// Each part says its numbers; the first difference, or the first part that shows too little, ends the run.
pub fn run_all(seed: u64, cases: [u64; 9]) -> bool {
    let [files, days, listings, extracts, trays, strips, received, shown, companies] = cases;
    // Said first, so that a run that breaks off can be made again.
    println!(
        "seed {seed}, {files} files, {days} days, {listings} listings, {extracts} extracts, \
         {trays} trays, {strips} strips, {received} received, {shown} shown, {companies} companies"
    );
    run(seed, files, least::FILES)
        && run(seed, days, least::DAYS)
        && run(seed, listings, least::LISTINGS)
        && run(seed, extracts, least::EXTRACTS)
        && run(seed, trays, least::TRAYS)
        && run(seed, strips, least::STRIPS)
        && run(seed, received, least::RECEIVED)
        && run(seed, shown, least::SHOWN)
        && run(seed, companies, least::COMPANIES)
}

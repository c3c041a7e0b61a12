//! A file of which one entity wants its own.

use second::day::Opening;

pub struct Asked {
    pub opening: Opening,
    pub entity: u64,
    pub file: Vec<u8>,
}

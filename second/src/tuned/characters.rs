//! The character test, over as many bytes at once as the compiler likes.

use crate::reading::RECORD;

/// How many records stand before the first with a byte that is no character.
pub fn clean_records(file: &[u8]) -> usize {
    if all_characters(file) {
        return file.len() / RECORD;
    }
    let mut records = file.chunks_exact(RECORD);
    let unclean = records.position(|record| !all_characters(record));
    unclean.unwrap_or(file.len() / RECORD)
}

/// Bytes 32 to 95 except 34, 38, 39 and 91 to 94. No way out before the end, so that the bytes can be taken many at a time.
fn all_characters(bytes: &[u8]) -> bool {
    let (mut highest, mut lowest, mut nearest) = (u8::MIN, u8::MAX, u8::MAX);
    for &byte in bytes {
        // With these bits turned, 32 to 95 is still one range, and 38 and 39 have become the last two of it.
        let turned = byte ^ 120;
        highest = highest.max(turned.wrapping_sub(32));
        // Then 91 to 94 are 0 to 3, and 34 is 55.
        let lowered = turned.wrapping_sub(35);
        lowest = lowest.min(lowered);
        nearest = nearest.min(lowered ^ 55);
    }
    highest < 62 && lowest > 3 && nearest > 0
}

#[cfg(test)]
mod tests {
    use super::*;
    use crate::fields::is_character;

    #[test]
    fn bytes_alone_and_among_others() {
        for byte in 0..=255 {
            assert_eq!(all_characters(&[byte]), is_character(byte));
            for at in 0..RECORD {
                let mut record = [b' '; RECORD];
                record[at] = byte;
                assert_eq!(all_characters(&record), is_character(byte));
            }
        }
    }
}

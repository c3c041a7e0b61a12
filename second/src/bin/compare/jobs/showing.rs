//! What is shown and kept of a case that made a difference.

/// The records of the buffer in which the two programs differ.
pub fn show_bytes(record: usize, before: &[u8], ours: &[u8], theirs: &[u8]) {
    let parts = before.chunks(record).zip(ours.chunks(record));
    let different = parts
        .zip(theirs.chunks(record))
        .enumerate()
        .filter(|(_, ((_, ours), theirs))| ours != theirs);
    for (place, ((before, ours), theirs)) in different.take(10) {
        println!("{place:5} before {}", before.escape_ascii());
        println!("      second {}", ours.escape_ascii());
        println!("      proved {}", theirs.escape_ascii());
    }
}

/// Both texts, as one.
pub fn both_texts(ours: &[u8], theirs: &Result<Vec<u8>, String>) -> String {
    let theirs = match theirs {
        Ok(text) => text.escape_ascii().to_string(),
        Err(complaint) => complaint.clone(),
    };
    format!("second:\n{}\nproved:\n{theirs}", ours.escape_ascii())
}

/// Shows the first records of a file or a tray, and keeps it whole.
pub fn show_and_keep(bytes: &[u8], record: usize, name: &str) {
    println!("{} bytes:", bytes.len());
    for (place, record) in bytes.chunks(record).enumerate().take(400) {
        println!("{place:5} {}", record.escape_ascii());
    }
    let path = std::env::temp_dir().join(format!("{name}.bin"));
    match std::fs::write(&path, bytes) {
        Ok(()) => println!("whole: {}", path.display()),
        Err(error) => println!("{name} not written: {error}"),
    }
}

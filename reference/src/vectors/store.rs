//! The stored files: writing them, and finding where they differ.

use super::Files;
use std::fs;
use std::path::Path;

pub fn write(folder: &Path, files: &Files) -> Result<(), String> {
    fs::create_dir_all(folder).map_err(|error| format!("{}: {error}", folder.display()))?;
    for (name, bytes) in parts(files) {
        let path = folder.join(name);
        fs::write(&path, bytes).map_err(|error| format!("{}: {error}", path.display()))?;
    }
    Ok(())
}

pub fn check(folder: &Path, files: &Files) -> Result<(), String> {
    for (name, bytes) in parts(files) {
        let path = folder.join(name);
        let stored = fs::read(&path).map_err(|error| format!("{}: {error}", path.display()))?;
        if let Some(line) = first_difference(&stored, bytes) {
            let path = path.display();
            return Err(format!("{path} differs from the reference at line {line}"));
        }
    }
    Ok(())
}

fn parts(files: &Files) -> [(&'static str, &[u8]); 2] {
    [("stdin", &files.stdin), ("stdout", &files.stdout)]
}

/// The first line, counted from 1, with a byte that differs or is missing.
fn first_difference(stored: &[u8], made: &[u8]) -> Option<usize> {
    let same = stored.iter().zip(made).take_while(|(s, m)| s == m).count();
    let line = 1 + made[..same].iter().filter(|byte| **byte == b'\n').count();
    (stored != made).then_some(line)
}

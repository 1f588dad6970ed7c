//! Standard input, which may be closed.

use std::fs;
use std::path::Path;

/// Why nothing can be read from standard input, if that is so.
pub fn trouble() -> Result<(), String> {
    if is_closed() {
        return Err("standard input is closed".to_string());
    }
    Ok(())
}

/// A program that is started without standard input gets /dev/null in its
/// place, opened for reading and writing, before its first line runs; whoever
/// lends /dev/null on purpose opens it for reading.
fn is_closed() -> bool {
    let is_null = fs::read_link("/proc/self/fd/0").is_ok_and(|path| path == Path::new("/dev/null"));
    is_null && is_read_write(&fs::read_to_string("/proc/self/fdinfo/0").unwrap_or_default())
}

/// Whether a file's description says that it was opened for both.
fn is_read_write(description: &str) -> bool {
    let flags = description
        .lines()
        .find_map(|line| line.strip_prefix("flags:"));
    // An octal number whose last two bits are 0 for reading, 1 for writing, 2 for both.
    let last = flags.and_then(|flags| flags.trim().chars().last());
    let last = last.and_then(|digit| digit.to_digit(8));
    last.is_some_and(|digit| digit & 3 == 2)
}

#[cfg(test)]
mod tests {
    use super::is_read_write;

    #[test]
    fn the_way_a_file_was_opened_is_read() {
        assert!(is_read_write("pos:\t0\nflags:\t0100002\nmnt_id:\t25\n"));
        assert!(!is_read_write("pos:\t0\nflags:\t0100000\nmnt_id:\t25\n"));
        assert!(!is_read_write("pos:\t0\nflags:\t0100001\n"));
        assert!(!is_read_write(""));
        assert!(!is_read_write("flags:\n"));
    }
}

//! Key files: 32 random bytes as 64 digits, which only their owner can read.

use crate::exit::{Fault, CANT_CREATE, CONFIG, NO_INPUT, NO_PERMISSION, SYSTEM};
use muoswyld_group::Key;
use std::fs::{File, OpenOptions};
use std::io::{Read, Write};
use std::os::unix::fs::{MetadataExt, OpenOptionsExt};
use std::path::Path;

/// How many bytes a key file has: 64 digits and a newline.
const LENGTH: usize = 65;

/// Makes a key file. It is an error if it is there already.
pub fn make(path: &Path) -> Result<(), Fault> {
    let key = Key::random().map_err(|error| Fault::of(SYSTEM, error))?;
    let cannot = |error| Fault::of(CANT_CREATE, format_args!("{}: {error}", path.display()));
    let mut options = OpenOptions::new();
    options.write(true).create_new(true).mode(0o600);
    let mut file = options.open(path).map_err(cannot)?;
    let text = format!("{}\n", hex::encode(key.bytes()));
    file.write_all(text.as_bytes()).map_err(cannot)?;
    file.sync_all().map_err(cannot)
}

/// The key of a file. It is an error if others can read it, or if it is no key.
pub fn read(path: &Path) -> Result<Key, Fault> {
    let shown = path.display();
    let cannot = |error| Fault::of(NO_INPUT, format_args!("{shown}: {error}"));
    let file = File::open(path).map_err(cannot)?;
    let about = file.metadata().map_err(cannot)?;
    if about.mode() & 0o077 != 0 {
        let line = format_args!("{shown} can be read by others: chmod 600 {shown}");
        return Err(Fault::of(NO_PERMISSION, line));
    }
    let mut text = Vec::new();
    let limit = LENGTH as u64 + 1;
    file.take(limit).read_to_end(&mut text).map_err(cannot)?;
    key_of(&text).ok_or_else(|| {
        let line = format_args!(
            "{shown} is no key: a key is 64 hexadecimal digits, as `muoswyldd keygen` writes it"
        );
        Fault::of(CONFIG, line)
    })
}

/// The key of a file's bytes.
fn key_of(text: &[u8]) -> Option<Key> {
    let digits = text.strip_suffix(b"\n").unwrap_or(text);
    let mut key = [0; 32];
    hex::decode_to_slice(digits, &mut key).ok()?;
    Some(Key::of(key))
}

#[cfg(test)]
mod tests {
    use super::*;

    #[test]
    fn sixty_four_digits_are_a_key() {
        let text = [b"0f".repeat(32), b"\n".to_vec()].concat();
        assert_eq!(key_of(&text).unwrap().bytes(), &[15; 32]);
        assert!(key_of(&text[..64]).is_some());
        for bad in [&text[..63], &[&text[..], b"\n"].concat(), b"", &[b'g'; 64]] {
            assert!(key_of(bad).is_none());
        }
    }
}

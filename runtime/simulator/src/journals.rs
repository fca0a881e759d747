//! The journals of a run: what is checked of them here, and the files that a judge reads.

use muoswyld_member::Name;
use std::collections::BTreeMap;
use std::path::{Path, PathBuf};
use std::{fs, io};

/// Looks whether each letter that was heard stands in its sender's journal.
pub fn heard_letters_stand(journals: &BTreeMap<Name, Vec<u8>>) -> Result<(), String> {
    let texts: BTreeMap<Name, String> = journals
        .iter()
        .map(|(name, lines)| (*name, String::from_utf8_lossy(lines).into_owned()))
        .collect();
    let sent: BTreeMap<Name, usize> = texts
        .iter()
        .map(|(name, text)| (*name, text.matches(" | ").count()))
        .collect();
    for (hearer, text) in &texts {
        for line in text.lines() {
            let Some((name, number)) = line.split('\t').nth(2).and_then(heard_of) else {
                continue;
            };
            let count = sent.get(&name).copied().unwrap_or(0);
            if number > count {
                return Err(format!(
                    "{hearer} heard letter {number} of {name}, whose journal has {count}"
                ));
            }
        }
    }
    Ok(())
}

fn heard_of(field: &str) -> Option<(Name, usize)> {
    let (name, number) = field.split_once(' ')?;
    Some((name.parse().ok()?, number.parse().ok()?))
}

/// Writes a run's journals to a new folder, a file each; their paths.
pub fn write(folder: &Path, journals: &BTreeMap<Name, Vec<u8>>) -> io::Result<Vec<PathBuf>> {
    fs::create_dir_all(folder)?;
    let mut paths = Vec::new();
    for (name, lines) in journals {
        let path = folder.join(format!("journal-{}", name.to_string().replace('/', "-")));
        fs::write(&path, lines)?;
        paths.push(path);
    }
    Ok(paths)
}

#[cfg(test)]
mod tests {
    use super::*;

    #[test]
    fn a_letter_without_its_line_is_found() {
        let name = |text: &str| text.parse::<Name>().expect("a name");
        let sender = b"node\t0\t0,1\t0\t16\t256\n5\tsend 61\t\tqueued 1 | 1 4147 | 2 4147\n";
        let hearer = |number| format!("7\thear 1 4147\t0 {number}\tstored 2\n").into_bytes();
        let journals =
            |number| BTreeMap::from([(name("0"), sender.to_vec()), (name("1"), hearer(number))]);
        assert_eq!(heard_letters_stand(&journals(2)), Ok(()));
        assert!(heard_letters_stand(&journals(3)).is_err());
    }
}

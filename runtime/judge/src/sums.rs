//! Sums by number, as many as come: the last ones in memory, the others in a temporary file.

use std::fs::{self, File, OpenOptions};
use std::io;
use std::os::unix::fs::FileExt;
use std::sync::atomic::{AtomicU64, Ordering};

/// How many are kept in memory at most.
const MOST: usize = 1 << 16;

/// Sums by number, from 0; 0 stands for none.
#[derive(Debug, Default)]
pub(crate) struct Sums {
    /// How many are in the file.
    filed: u64,
    file: Option<File>,
    recent: Vec<u64>,
}

/// A temporary file without a name.
fn temporary() -> io::Result<File> {
    static COUNT: AtomicU64 = AtomicU64::new(0);
    let count = COUNT.fetch_add(1, Ordering::Relaxed);
    let path = std::env::temp_dir().join(format!("muoswyld-judge-{}-{count}", std::process::id()));
    let file = OpenOptions::new()
        .read(true)
        .write(true)
        .create_new(true)
        .open(&path)?;
    fs::remove_file(path)?;
    Ok(file)
}

impl Sums {
    /// How many there are.
    pub(crate) fn len(&self) -> u64 {
        self.filed + self.recent.len() as u64
    }

    /// Adds one.
    pub(crate) fn push(&mut self, sum: u64) -> io::Result<()> {
        if self.recent.len() == MOST {
            let file = match self.file.take() {
                Some(file) => file,
                None => temporary()?,
            };
            let old: Vec<u8> = self
                .recent
                .drain(..MOST / 2)
                .flat_map(u64::to_le_bytes)
                .collect();
            file.write_all_at(&old, 8 * self.filed)?;
            self.filed += (MOST / 2) as u64;
            self.file = Some(file);
        }
        self.recent.push(sum);
        Ok(())
    }

    /// The one of a number; 0 if there is none.
    pub(crate) fn get(&self, number: u64) -> io::Result<u64> {
        match (number.checked_sub(self.filed), &self.file) {
            (Some(at), _) => {
                let at = usize::try_from(at).ok();
                Ok(at.and_then(|at| self.recent.get(at)).copied().unwrap_or(0))
            }
            (None, Some(file)) => {
                let mut bytes = [0; 8];
                file.read_exact_at(&mut bytes, 8 * number)?;
                Ok(u64::from_le_bytes(bytes))
            }
            (None, None) => Ok(0),
        }
    }

    /// Puts one at a number, with none at those between.
    pub(crate) fn set(&mut self, number: u64, sum: u64) -> io::Result<()> {
        while self.len() <= number {
            self.push(0)?;
        }
        match (number.checked_sub(self.filed), &self.file) {
            (Some(at), _) => {
                let at = usize::try_from(at).ok();
                if let Some(there) = at.and_then(|at| self.recent.get_mut(at)) {
                    *there = sum;
                }
                Ok(())
            }
            (None, Some(file)) => file.write_all_at(&sum.to_le_bytes(), 8 * number),
            (None, None) => Ok(()),
        }
    }
}

#[cfg(test)]
mod tests {
    use super::*;

    #[test]
    fn all_stay() {
        let mut sums = Sums::default();
        let count = 5 * MOST as u64 + 17;
        for number in 0..count {
            sums.push(number * number + 1).expect("a file");
        }
        assert_eq!(sums.len(), count);
        assert!(sums.recent.len() <= MOST);
        for number in (0..count).step_by(1009).chain([count - 1]) {
            assert_eq!(sums.get(number).expect("a file"), number * number + 1);
        }
        assert_eq!(sums.get(count).expect("a file"), 0);
    }

    #[test]
    fn they_are_put_anywhere() {
        let mut sums = Sums::default();
        let far = 3 * MOST as u64;
        sums.set(far, 7).expect("a file");
        sums.set(2, 5).expect("a file");
        assert_eq!(sums.len(), far + 1);
        let got: Vec<u64> = [1, 2, 3, far]
            .map(|at| sums.get(at).expect("a file"))
            .to_vec();
        assert_eq!(got, [0, 5, 0, 7]);
    }
}

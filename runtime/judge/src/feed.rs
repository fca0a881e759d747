//! Lines of a file as they come: to its end, or, while it is followed, until it is known to be over.

use std::fs::File;
use std::io::{self, BufRead, BufReader};
use std::path::Path;
use std::sync::atomic::{AtomicBool, Ordering};
use std::sync::Arc;
use std::thread;
use std::time::Duration;

/// How often a file that is followed is looked at.
const PAUSE: Duration = Duration::from_millis(20);

/// Whether nothing more is added to a file.
#[derive(Clone, Debug, Default)]
pub struct Over(Arc<AtomicBool>);

impl Over {
    /// A file to which nothing is added any more, or one that is followed.
    pub fn new(is_over: bool) -> Over {
        Over(Arc::new(AtomicBool::new(is_over)))
    }

    /// Says that nothing more is added.
    pub fn set(&self) {
        self.0.store(true, Ordering::Release);
    }

    /// Whether nothing more is added.
    pub fn is_set(&self) -> bool {
        self.0.load(Ordering::Acquire)
    }
}

/// A file's lines.
#[derive(Debug)]
pub(crate) struct Feed {
    file: BufReader<File>,
    over: Over,
    line: Vec<u8>,
}

impl Feed {
    /// Those of a file, from its beginning.
    pub(crate) fn open(path: &Path, over: Over) -> io::Result<Feed> {
        Ok(Feed {
            file: BufReader::with_capacity(1 << 16, File::open(path)?),
            over,
            line: Vec::new(),
        })
    }

    /// The next line without its end; None after the last whole one.
    pub(crate) fn next(&mut self) -> io::Result<Option<&[u8]>> {
        self.line.clear();
        loop {
            // what is added before this is set is read below
            let was_over = self.over.is_set();
            self.file.read_until(b'\n', &mut self.line)?;
            if self.line.last() == Some(&b'\n') {
                self.line.pop();
                return Ok(Some(&self.line));
            }
            if was_over {
                return Ok(None);
            }
            thread::sleep(PAUSE);
        }
    }
}

#[cfg(test)]
mod tests {
    use super::*;
    use std::io::Write;

    #[test]
    fn lines_come_as_they_are_written() {
        let path = std::env::temp_dir().join(format!("muoswyld-feed-{}", std::process::id()));
        let mut file = File::create(&path).expect("a file");
        let over = Over::new(false);
        let mut feed = Feed::open(&path, over.clone()).expect("a file");
        write!(file, "one\ntw").expect("written");
        assert_eq!(feed.next().expect("read"), Some(&b"one"[..]));
        let writer = thread::spawn(move || {
            thread::sleep(Duration::from_millis(50));
            write!(file, "o\nthre").expect("written");
            over.set();
        });
        assert_eq!(feed.next().expect("read"), Some(&b"two"[..]));
        assert_eq!(feed.next().expect("read"), None);
        writer.join().expect("a writer");
        std::fs::remove_file(path).expect("removed");
    }
}

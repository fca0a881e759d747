//! Logs on standard error, or in a file that SIGHUP opens again.

use crate::exit::{Fault, CANT_CREATE};
use crate::options::LogForm;
use std::fs::{File, OpenOptions};
use std::io::{self, Write};
use std::os::unix::fs::OpenOptionsExt;
use std::path::{Path, PathBuf};
use std::sync::{Arc, Mutex, PoisonError};
use tracing_subscriber::fmt::MakeWriter;

/// Where logs go.
#[derive(Clone)]
pub struct Log {
    path: Option<PathBuf>,
    file: Arc<Mutex<Option<File>>>,
}

fn opened(path: &Path) -> io::Result<File> {
    let mut options = OpenOptions::new();
    options.append(true).create(true).mode(0o600);
    options.open(path)
}

impl Log {
    /// Logs in a file, or on standard error.
    pub fn to(path: Option<&Path>) -> Result<Log, Fault> {
        let log = Log {
            path: path.map(Path::to_path_buf),
            file: Arc::default(),
        };
        log.reopen().map_err(|error| {
            let shown = path.unwrap_or(Path::new("standard error"));
            Fault::of(CANT_CREATE, format_args!("{}: {error}", shown.display()))
        })?;
        Ok(log)
    }

    /// Opens the file again, as after it was moved away.
    pub fn reopen(&self) -> io::Result<()> {
        let file = self.path.as_deref().map(opened).transpose()?;
        *self.file.lock().unwrap_or_else(PoisonError::into_inner) = file;
        Ok(())
    }

    /// Has all logs of the process written here.
    pub fn begin(&self, form: LogForm) {
        let all = tracing_subscriber::fmt()
            .with_writer(self.clone())
            .with_ansi(false)
            .with_target(false);
        match form {
            LogForm::Text => all.init(),
            LogForm::Json => all.json().init(),
        }
    }
}

impl Write for Log {
    fn write(&mut self, bytes: &[u8]) -> io::Result<usize> {
        match &mut *self.file.lock().unwrap_or_else(PoisonError::into_inner) {
            Some(file) => file.write(bytes),
            None => io::stderr().write(bytes),
        }
    }

    fn flush(&mut self) -> io::Result<()> {
        Ok(())
    }
}

impl<'a> MakeWriter<'a> for Log {
    type Writer = Log;

    fn make_writer(&'a self) -> Log {
        self.clone()
    }
}

//! The words of the command: those of `muoswyldd run`, and the store's.

use clap::{Args, Parser, Subcommand, ValueEnum};
use muoswyldd::exit::{Fault, CONFIG, NO_INPUT};
use muoswyldd::options::{self, At};
use muoswyldd::otherwise::Otherwise;
use serde::Deserialize;
use std::net::SocketAddr;
use std::path::{Path, PathBuf};

/// A replicated key-value store that speaks the Redis protocol.
#[derive(Debug, Parser)]
#[command(name = "muoswyld-kv", version)]
pub struct Words {
    /// What to do.
    #[command(subcommand)]
    pub verb: Verb,
}

/// What the command does.
#[derive(Debug, Subcommand)]
pub enum Verb {
    /// Runs a store
    Run(Box<Run>),
    /// Makes a place's folder of state, once, when the group is founded; the words are those of `run`
    Found(Box<Run>),
    /// Writes a new key file, for all members of a group
    Keygen {
        /// The file to make
        file: PathBuf,
    },
    /// Has a store that runs end its group's list, so that another one follows it; what isn't said stays as it is
    Succeed {
        /// The store's member
        #[command(flatten)]
        at: At,
        /// What the next list has otherwise
        #[command(flatten)]
        next: Otherwise,
    },
}

/// How reads are done.
#[derive(Clone, Copy, Debug, Default, PartialEq, Eq, ValueEnum, Deserialize)]
#[serde(rename_all = "lowercase")]
pub enum Reads {
    /// Through the group's list: a read sees each write that was answered before it was asked
    #[default]
    Ordered,
    /// At this member alone: a read may be of an earlier state
    Local,
}

/// The store's settings. In a configuration file they are keys of the table `[store]`.
#[derive(Clone, Debug, Default, Args, Deserialize)]
#[serde(default, deny_unknown_fields, rename_all = "kebab-case")]
pub struct Store {
    /// Where clients connect [default: 127.0.0.1:6379]
    #[arg(long, value_name = "ADDRESS:PORT")]
    pub listen: Option<SocketAddr>,
    /// The most bytes of keys and values, each counted with 96 more; the same at all members [default: 268435456]
    #[arg(long, value_name = "BYTES")]
    pub max_memory: Option<u64>,
    /// The most clients [default: 1000]
    #[arg(long, value_name = "N")]
    pub max_clients: Option<usize>,
    /// How reads are done [default: ordered]
    #[arg(long, value_enum)]
    pub reads: Option<Reads>,
}

/// All settings.
#[derive(Debug, Default, Args)]
#[group(id = "store")]
pub struct Run {
    /// The store's.
    #[command(flatten)]
    pub store: Store,
    /// The member's.
    #[command(flatten)]
    pub member: options::Run,
}

impl Run {
    /// These words over the configuration file that they name.
    pub fn with_file(self) -> Result<Run, Fault> {
        let Some(path) = self.member.config.clone() else {
            return Ok(self);
        };
        let (store, member) = read_file(&path)?;
        Ok(Run {
            store: Store {
                listen: self.store.listen.or(store.listen),
                max_memory: self.store.max_memory.or(store.max_memory),
                max_clients: self.store.max_clients.or(store.max_clients),
                reads: self.store.reads.or(store.reads),
            },
            member: self.member.over(member),
        })
    }
}

/// The store's and the member's settings of a file.
fn read_file(path: &Path) -> Result<(Store, options::Run), Fault> {
    let shown = path.display();
    let text = std::fs::read_to_string(path)
        .map_err(|error| Fault::of(NO_INPUT, format_args!("{shown}: {error}")))?;
    let wrong = |error: toml::de::Error| Fault::of(CONFIG, format_args!("{shown}: {error}"));
    let mut table: toml::Value = toml::from_str(&text).map_err(wrong)?;
    let store = table.as_table_mut().and_then(|table| table.remove("store"));
    let store = store.map_or_else(|| Ok(Store::default()), |store| store.try_into());
    Ok((store.map_err(wrong)?, options::of_table(table, path)?))
}

#[cfg(test)]
mod tests {
    use super::*;

    #[test]
    fn words_stand_over_the_file() {
        let path = std::env::temp_dir().join(format!("muoswyld-kv-{}", std::process::id()));
        std::fs::write(
            &path,
            "name = \"1\"\nresilience = 1\n[store]\nmax-memory = 5\nreads = \"local\"\n",
        )
        .unwrap();
        let words = ["muoswyld-kv", "run", "--max-memory", "7", "--config"];
        let words = words.iter().map(|word| word.to_string());
        let words = words.chain([path.to_str().unwrap().to_string()]);
        let Verb::Run(run) = Words::try_parse_from(words).unwrap().verb else {
            panic!("run");
        };
        let run = run.with_file().unwrap();
        assert_eq!(run.store.max_memory, Some(7));
        assert_eq!(run.store.reads, Some(Reads::Local));
        assert_eq!(run.member.resilience, Some(1));
        std::fs::write(&path, "[store]\nmemory = 5\n").unwrap();
        assert_eq!(read_file(&path).unwrap_err().status, CONFIG);
        std::fs::remove_file(&path).unwrap();
    }
}

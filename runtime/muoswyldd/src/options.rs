//! The words of the command, and the configuration file that may stand in their place.

use crate::exit::{Fault, CONFIG, NO_INPUT};
use crate::failing::{missing, By};
use crate::key;
use crate::otherwise::Otherwise;
use crate::show::Form;
use clap::{Args, Parser, Subcommand, ValueEnum};
use muoswyld_group::{Config, Limits, Name, Names};
use serde::Deserialize;
use std::collections::BTreeMap;
use std::net::{SocketAddr, ToSocketAddrs};
use std::path::{Path, PathBuf};
use std::time::Duration;

/// With how many lives left the list ends by itself where only the numbers are said, and the other way round.
const LIVES_LEFT: u8 = 1;
const NUMBERS_LEFT: u32 = 1_000_000;

/// A member of a group: all members are given the same messages in the same order.
#[derive(Debug, Parser)]
#[command(name = "muoswyldd", version)]
pub struct Words {
    /// What to do.
    #[command(subcommand)]
    pub verb: Verb,
}

/// What the command does.
#[derive(Debug, Subcommand)]
pub enum Verb {
    /// Runs a member
    Run(Box<Run>),
    /// Makes a place's folder of state, once, when the group is founded; the words are those of `run`
    Found(Box<Run>),
    /// Writes a new key file, for all members of a group
    Keygen {
        /// The file to make
        file: PathBuf,
    },
    /// Sends a message by a member that runs, and prints its number
    Send {
        /// The member
        #[command(flatten)]
        at: At,
        /// The message
        message: String,
    },
    /// Has a member that runs leave its group
    Leave {
        /// The member
        #[command(flatten)]
        at: At,
    },
    /// Has a member that runs reset its group
    Reset {
        /// The member
        #[command(flatten)]
        at: At,
        /// The fewest members to go on with
        least: Option<u8>,
    },
    /// Has a member that runs end its group's list, so that another one follows it; what isn't said stays as it is
    Succeed {
        /// The member
        #[command(flatten)]
        at: At,
        /// What the next list has otherwise
        #[command(flatten)]
        next: Otherwise,
    },
    /// Tells a member that runs that another one has stopped for certain
    Stopped {
        /// The member
        #[command(flatten)]
        at: At,
        /// The name that has stopped
        name: Name,
        /// How many lists came before the one that the name is of [default: the latest one]
        #[arg(long, value_name = "N")]
        generation: Option<u32>,
    },
    /// Prints how a member that runs stands, as JSON
    Status {
        /// The member
        #[command(flatten)]
        at: At,
    },
}

/// Where a member listens.
#[derive(Debug, Args)]
pub struct At {
    /// The member's Unix socket
    #[arg(long, value_name = "PATH")]
    pub socket: PathBuf,
}

/// What lines of standard input are.
#[derive(Clone, Copy, Debug, Default, PartialEq, Eq, ValueEnum, Deserialize)]
#[serde(rename_all = "lowercase")]
pub enum Reads {
    /// Each line is a message
    #[default]
    Messages,
    /// Each line is a command, as on the Unix socket
    Commands,
    /// Standard input isn't read
    Nothing,
}

/// How logs are written.
#[derive(Clone, Copy, Debug, Default, PartialEq, Eq, ValueEnum, Deserialize)]
#[serde(rename_all = "lowercase")]
pub enum LogForm {
    /// As text
    #[default]
    Text,
    /// As JSON
    Json,
}

/// The settings of a member, as words and as keys of the configuration file. A word stands over the file's key.
#[derive(Debug, Default, Args, Deserialize)]
#[serde(default, deny_unknown_fields, rename_all = "kebab-case")]
pub struct Run {
    /// A configuration file in TOML, whose keys are the names of these options
    #[arg(long, value_name = "FILE")]
    #[serde(skip)]
    pub config: Option<PathBuf>,
    /// This member's name: PLACE, 0 to 15, or PLACE/LIFE for a place that comes back, with a life of 2 to 16
    #[arg(long)]
    #[serde(deserialize_with = "by_text")]
    pub name: Option<Name>,
    /// The founders' places, as 0,1,2
    #[arg(long, value_name = "PLACES")]
    #[serde(deserialize_with = "by_text")]
    pub founders: Option<Names>,
    /// The address of a place, as 1=host:7000; once for each place
    #[arg(long = "address", value_name = "PLACE=HOST:PORT", value_parser = address_word)]
    #[serde(skip)]
    pub address: Vec<(u8, String)>,
    #[arg(skip)]
    addresses: BTreeMap<String, String>,
    /// An address of a member of the group, as host:7000, at which this one asks for founders, numbers, policy, voters and addresses that
    /// aren't said here; may be said several times
    #[arg(long, value_name = "HOST:PORT")]
    pub seed: Vec<String>,
    /// The address to bind, if it isn't the one at which others reach this member
    #[arg(long, value_name = "ADDRESS:PORT")]
    pub bind: Option<SocketAddr>,
    /// How many members may stop between two resets, 0 to 15 [default: 0]
    #[arg(long, value_name = "N")]
    pub resilience: Option<u8>,
    /// How many entries may wait for the slowest member, 1 to 1008 [default: 256]
    #[arg(long, value_name = "N")]
    pub window: Option<u16>,
    /// Up to how many bytes a body goes by the sequencer, 0 to 1024 [default: 1024]
    #[arg(long, value_name = "BYTES")]
    pub pb_up_to: Option<u16>,
    /// The fewest members that a reset goes on with, 1 to 16 [default: a majority of the last view]
    #[arg(long, value_name = "N")]
    pub least: Option<u8>,
    /// Milliseconds between two ticks of an idle member [default: 50]
    #[arg(long, value_name = "MILLISECONDS")]
    pub tick: Option<u64>,
    /// For how many microseconds a busy member looks for more before it sleeps, 0 to 100000 [default: 0]
    #[arg(long, value_name = "MICROSECONDS")]
    pub spin: Option<u64>,
    /// The most bytes of a datagram's payload, 1232 to 65000 [default: 1400]
    #[arg(long, value_name = "BYTES")]
    pub datagram: Option<usize>,
    /// The group's key file, as `muoswyldd keygen` writes it
    #[arg(long, value_name = "FILE")]
    pub key: Option<PathBuf>,
    /// Runs without a key: whoever reaches a member's address can then read all, and end the group
    #[arg(long)]
    pub insecure: bool,
    /// A new file for what the node was given and what it answered, so that the run can be judged
    #[arg(long, value_name = "FILE")]
    pub journal: Option<PathBuf>,
    /// A Unix socket to make, for `muoswyldd send` and the like
    #[arg(long, value_name = "PATH")]
    pub socket: Option<PathBuf>,
    /// An address on which metrics are served for Prometheus, as 127.0.0.1:9100
    #[arg(long, value_name = "ADDRESS:PORT")]
    pub metrics: Option<SocketAddr>,
    /// What lines of standard input are [default: messages]
    #[arg(long, value_enum)]
    pub input: Option<Reads>,
    /// How deliveries are printed [default: lines]
    #[arg(long, value_enum)]
    pub output: Option<Form>,
    /// A file for logs, in place of standard error; SIGHUP opens it again
    #[arg(long, value_name = "FILE")]
    pub log: Option<PathBuf>,
    /// How logs are written [default: text]
    #[arg(long, value_enum)]
    pub log_form: Option<LogForm>,
    /// What makes it certain that a name has stopped [default: echo if --voters and --state are said, else told]
    #[arg(long, value_enum)]
    pub failures: Option<By>,
    /// The places that vote who has stopped: founders, odd in number, as 0,1,2 [default: the founders]
    #[arg(long, value_name = "PLACES")]
    #[serde(deserialize_with = "by_text")]
    pub voters: Option<Names>,
    /// This place's folder of state on a local disk, which `muoswyldd found` makes
    #[arg(long, value_name = "FOLDER")]
    pub state: Option<PathBuf>,
    /// Runs the next life of the place that was never begun, as the folder of state says
    #[arg(long)]
    pub next_life: bool,
    /// For --failures command: the program that ends the name which is its one argument, and ends with 0 once that is done
    #[arg(long, value_name = "PROGRAM")]
    pub fence: Option<PathBuf>,
    /// Seconds that this program may take; then it is killed [default: 30]
    #[arg(long, value_name = "SECONDS")]
    pub fence_within: Option<u64>,
    /// For --failures lease: milliseconds that a lease lasts [default: 1000]
    #[arg(long, value_name = "MILLISECONDS")]
    pub lease: Option<u64>,
    /// For --failures lease: by how many thousandths the rate of a machine's clock may be off [default: 100]
    #[arg(long, value_name = "THOUSANDTHS")]
    pub drift: Option<u64>,
    /// Milliseconds between two heartbeats [default: 100]
    #[arg(long, value_name = "MILLISECONDS")]
    pub heartbeat: Option<u64>,
    /// Milliseconds by which the time differs that datagrams take, usually [default: 50]
    #[arg(long, value_name = "MILLISECONDS")]
    pub delay: Option<u64>,
    /// Milliseconds of silence after which a name is suspected [default: as few as may be]
    #[arg(long, value_name = "MILLISECONDS")]
    pub silence: Option<u64>,
    /// The list ends by itself, and another one follows it, once a member's place has at most so many lives left, 0 to 15 [default: it
    /// doesn't; 1 if --succeed-at-numbers is said]
    #[arg(long, value_name = "N")]
    pub succeed_at_lives: Option<u8>,
    /// The list ends by itself, and another one follows it, once at most so many numbers of entries are left [default: it doesn't; 1000000 if
    /// --succeed-at-lives is said]
    #[arg(long, value_name = "N")]
    pub succeed_at_numbers: Option<u32>,
    /// Seconds that the member may take to come into the group [default: without end]
    #[arg(long, value_name = "SECONDS")]
    pub start_within: Option<u64>,
    /// Seconds that leaving may take at the end [default: 10]
    #[arg(long, value_name = "SECONDS")]
    pub leave_within: Option<u64>,
}

/// Reads a name or a set of names from its text.
fn by_text<'de, T, D>(deserializer: D) -> Result<Option<T>, D::Error>
where
    T: std::str::FromStr,
    T::Err: std::fmt::Display,
    D: serde::Deserializer<'de>,
{
    let text = String::deserialize(deserializer)?;
    text.parse().map(Some).map_err(serde::de::Error::custom)
}

fn address_word(word: &str) -> Result<(u8, String), String> {
    let parts = word.split_once('=');
    let (place, address) = parts.ok_or("it is PLACE=HOST:PORT")?;
    let place: Name = place.parse().map_err(|error| format!("{error}"))?;
    Ok((place.place(), address.to_string()))
}

/// The address of a host and a port.
pub(crate) fn resolve(text: &str) -> Result<SocketAddr, Fault> {
    let found = text.to_socket_addrs().map(|mut found| found.next());
    match found {
        Ok(Some(address)) => Ok(address),
        Ok(None) => Err(Fault::of(CONFIG, format_args!("{text} has no address"))),
        Err(error) => Err(Fault::of(CONFIG, format_args!("{text}: {error}"))),
    }
}

impl Run {
    /// These words over the configuration file that they name.
    pub fn with_file(self) -> Result<Run, Fault> {
        let Some(path) = &self.config else {
            return Ok(self);
        };
        let shown = path.display();
        let text = std::fs::read_to_string(path)
            .map_err(|error| Fault::of(NO_INPUT, format_args!("{shown}: {error}")))?;
        let table = toml::from_str(&text)
            .map_err(|error| Fault::of(CONFIG, format_args!("{shown}: {error}")))?;
        let file = of_table(table, path)?;
        Ok(self.over(file))
    }

    /// Each setting of these words, or else the file's.
    pub fn over(mut self, file: Run) -> Run {
        for (place, address) in file.addresses {
            let word = address_word(&format!("{place}={address}"));
            let is_new = |known: &[(u8, String)], place| !known.iter().any(|(it, _)| *it == place);
            match word {
                Ok((place, address)) if is_new(&self.address, place) => {
                    self.address.push((place, address));
                }
                _ => {}
            }
        }
        Run {
            config: self.config,
            address: self.address,
            addresses: BTreeMap::new(),
            seed: match self.seed.is_empty() {
                true => file.seed,
                false => self.seed,
            },
            insecure: self.insecure || file.insecure,
            name: self.name.or(file.name),
            founders: self.founders.or(file.founders),
            bind: self.bind.or(file.bind),
            resilience: self.resilience.or(file.resilience),
            window: self.window.or(file.window),
            pb_up_to: self.pb_up_to.or(file.pb_up_to),
            least: self.least.or(file.least),
            tick: self.tick.or(file.tick),
            spin: self.spin.or(file.spin),
            datagram: self.datagram.or(file.datagram),
            key: self.key.or(file.key),
            journal: self.journal.or(file.journal),
            socket: self.socket.or(file.socket),
            metrics: self.metrics.or(file.metrics),
            input: self.input.or(file.input),
            output: self.output.or(file.output),
            log: self.log.or(file.log),
            log_form: self.log_form.or(file.log_form),
            failures: self.failures.or(file.failures),
            voters: self.voters.or(file.voters),
            state: self.state.or(file.state),
            next_life: self.next_life || file.next_life,
            fence: self.fence.or(file.fence),
            fence_within: self.fence_within.or(file.fence_within),
            lease: self.lease.or(file.lease),
            drift: self.drift.or(file.drift),
            heartbeat: self.heartbeat.or(file.heartbeat),
            delay: self.delay.or(file.delay),
            silence: self.silence.or(file.silence),
            succeed_at_lives: self.succeed_at_lives.or(file.succeed_at_lives),
            succeed_at_numbers: self.succeed_at_numbers.or(file.succeed_at_numbers),
            start_within: self.start_within.or(file.start_within),
            leave_within: self.leave_within.or(file.leave_within),
        }
    }

    /// The group's configuration that they say.
    pub fn group(&self) -> Result<Config, Fault> {
        let facts = self.asked()?;
        let (name, list) = self.name_to_run(facts.as_ref())?;
        let wrong = |error| Fault::of(CONFIG, error);
        let facts = match facts {
            Some(mut facts) => {
                // an address that is said stands over one that is told
                let is_said = |place: &u8| self.address.iter().any(|(said, _)| said == place);
                facts.addresses.retain(|(place, _)| !is_said(place));
                Some(facts)
            }
            None => None,
        };
        let mut config = match (&facts, self.founders) {
            (_, Some(founders)) => Config::new(name, founders),
            (Some(facts), None) => facts.config(name).map_err(wrong)?,
            (None, None) => return Err(missing("founders")),
        };
        for (place, text) in &self.address {
            config = config.address(*place, resolve(text)?).map_err(wrong)?;
        }
        if let Some(address) = self.bind {
            config = config.bind(address);
        }
        config = match (&self.key, self.insecure) {
            (Some(path), _) => config.key(key::read(path)?),
            (None, true) => config.insecure(),
            (None, false) => config,
        };
        let config = self.failing(self.numbers(config), facts.as_ref())?;
        Ok(match list {
            // its numbers and voters are those of the list in which it begins
            Some(list) => config.later(list),
            None => config,
        })
    }

    /// When the list ends by itself, if it does.
    fn limits(&self) -> Option<Limits> {
        match (self.succeed_at_lives, self.succeed_at_numbers) {
            (None, None) => None,
            (lives, numbers) => Some(Limits {
                lives: lives.unwrap_or(LIVES_LEFT),
                numbers: numbers.unwrap_or(NUMBERS_LEFT),
            }),
        }
    }

    /// With the numbers that are said.
    fn numbers(&self, mut config: Config) -> Config {
        if let Some(resilience) = self.resilience {
            config = config.resilience(resilience);
        }
        if let Some(window) = self.window {
            config = config.window(window);
        }
        if let Some(bytes) = self.pb_up_to {
            config = config.pb_up_to(bytes);
        }
        if let Some(least) = self.least {
            config = config.least(least);
        }
        if let Some(bytes) = self.datagram {
            config = config.datagram(bytes);
        }
        if let Some(tick) = self.tick {
            config = config.tick(Duration::from_millis(tick.max(1)));
        }
        if let Some(spin) = self.spin {
            config = config.spin(Duration::from_micros(spin));
        }
        if let Some(file) = &self.journal {
            config = config.journal(file.clone());
        }
        if let Some(seconds) = self.start_within {
            config = config.start_within(Duration::from_secs(seconds));
        }
        if let Some(limits) = self.limits() {
            config = config.succeed_at(limits);
        }
        config
    }
}

/// The settings of a configuration file's table; the path is for errors.
pub fn of_table(table: toml::Value, path: &Path) -> Result<Run, Fault> {
    let shown = path.display();
    let file: Run = table
        .try_into()
        .map_err(|error| Fault::of(CONFIG, format_args!("{shown}: {error}")))?;
    for (place, address) in &file.addresses {
        address_word(&format!("{place}={address}")).map_err(|error| {
            Fault::of(
                CONFIG,
                format_args!("{shown}: address of {place:?}: {error}"),
            )
        })?;
    }
    Ok(file)
}

#[cfg(test)]
mod tests {
    use super::*;

    fn run_of(words: &[&str]) -> Run {
        let all = ["muoswyldd", "run"].iter().chain(words);
        match Words::try_parse_from(all).unwrap().verb {
            Verb::Run(run) => *run,
            other => panic!("{other:?}"),
        }
    }

    #[test]
    fn words_stand_over_the_file() {
        let file: Run = toml::from_str(
            "name = \"1\"\nfounders = \"0,1\"\nresilience = 1\n[addresses]\n0 = \"127.0.0.1:1\"\n1 = \"127.0.0.1:2\"\n",
        )
        .unwrap();
        let run = run_of(&["--name", "1/2", "--address", "1=127.0.0.1:9"]).over(file);
        assert_eq!(run.name.unwrap().to_string(), "1/2");
        assert_eq!(run.founders.unwrap().to_string(), "0,1");
        assert_eq!(run.resilience, Some(1));
        let addresses = [
            (1, "127.0.0.1:9".to_string()),
            (0, "127.0.0.1:1".to_string()),
        ];
        assert_eq!(run.address, addresses);
    }

    #[test]
    fn who_has_stopped_is_said_by_words_or_the_file() {
        let file: Run = toml::from_str(
            "failures = \"lease\"\nvoters = \"0,1,2\"\nstate = \"s\"\nnext-life = true\nlease = 400\ndrift = 50\nheartbeat = 20\ndelay = 10\nsilence = 900\nfence = \"f\"\nfence-within = 3\n",
        )
        .unwrap();
        let run = run_of(&["--failures", "command", "--drift", "7"]).over(file);
        assert_eq!(run.failures, Some(By::Command));
        assert_eq!(run.voters.unwrap().to_string(), "0,1,2");
        assert_eq!(run.state, Some(PathBuf::from("s")));
        assert!(run.next_life);
        let times = [run.lease, run.drift, run.heartbeat, run.delay, run.silence];
        assert_eq!(times, [400, 7, 20, 10, 900].map(Some));
        assert_eq!(run.fence, Some(PathBuf::from("f")));
        assert_eq!(run.fence_within, Some(3));
        assert!(toml::from_str::<Run>("failures = \"guess\"").is_err());
    }

    #[test]
    fn a_list_ends_by_itself_if_that_is_said() {
        assert_eq!(run_of(&[]).limits(), None);
        let file: Run = toml::from_str("succeed-at-numbers = 7").unwrap();
        let limits = run_of(&[]).over(file).limits().unwrap();
        assert_eq!((limits.lives, limits.numbers), (LIVES_LEFT, 7));
        let limits = run_of(&["--succeed-at-lives", "3"]).limits().unwrap();
        assert_eq!((limits.lives, limits.numbers), (3, NUMBERS_LEFT));
    }

    #[test]
    fn unknown_keys_and_bad_names_are_refused() {
        for text in [
            "nmae = \"1\"",
            "name = \"16\"",
            "founders = \"1,0\"",
            "window = \"x\"",
        ] {
            assert!(toml::from_str::<Run>(text).is_err(), "{text}");
        }
    }

    #[test]
    fn a_group_wants_a_name_and_founders() {
        assert_eq!(run_of(&[]).group().unwrap_err().status, CONFIG);
        let words = [
            "--name",
            "0",
            "--founders",
            "0",
            "--address",
            "0=127.0.0.1:7000",
        ];
        assert!(run_of(&words).group().is_ok());
    }
}

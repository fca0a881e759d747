//! What a server tells of itself: INFO, CONFIG GET and HELLO.

use crate::pattern;
use crate::resp::reply;
use crate::store::MOST_VALUE;
use muoswyld_group::Info;
use muoswyld_replica::Status;
use std::fmt::Write;

/// The version of Redis whose words are spoken.
const SPEAKS: &str = "7.0.15";

/// What a server knows of itself.
#[derive(Clone, Debug)]
pub struct About {
    /// Its port.
    pub port: u16,
    /// How many seconds it runs.
    pub uptime: u64,
    /// How many clients are connected.
    pub clients: usize,
    /// How many may be.
    pub most_clients: usize,
    /// How many requests it answered.
    pub requests: u64,
    /// How many keys the store has.
    pub keys: usize,
    /// How many bytes the store takes, as it counts them.
    pub used: u64,
    /// How many it may take.
    pub most: u64,
    /// Whether reads go through the list.
    pub are_ordered: bool,
    /// How the replica stands.
    pub replica: Status,
    /// How the member stands.
    pub member: Info,
}

impl About {
    /// INFO, of some sections or of all.
    pub fn info(&self, sections: &[String]) -> String {
        let all: [(&str, String); 6] = [
            ("Server", self.server()),
            ("Clients", self.of_clients()),
            ("Memory", self.memory()),
            (
                "Stats",
                format!("total_commands_processed:{}\r\n", self.requests),
            ),
            ("Replication", self.replication()),
            ("Keyspace", self.keyspace()),
        ];
        let wanted = |title: &str| {
            let lower = title.to_lowercase();
            sections.is_empty() || sections.contains(&lower)
        };
        let chosen = all.iter().filter(|(title, _)| wanted(title));
        let texts = chosen.map(|(title, text)| format!("# {title}\r\n{text}"));
        texts.collect::<Vec<_>>().join("\r\n")
    }

    fn server(&self) -> String {
        format!(
            "server_name:muoswyld-kv\r\nredis_version:{SPEAKS}\r\nredis_mode:standalone\r\nprocess_id:{}\r\ntcp_port:{}\r\nuptime_in_seconds:{}\r\n",
            std::process::id(),
            self.port,
            self.uptime
        )
    }

    fn of_clients(&self) -> String {
        format!(
            "connected_clients:{}\r\nmaxclients:{}\r\n",
            self.clients, self.most_clients
        )
    }

    fn memory(&self) -> String {
        format!(
            "used_memory:{}\r\nmaxmemory:{}\r\nmaxmemory_policy:noeviction\r\n",
            self.used, self.most
        )
    }

    /// The group: its members, the view, and how far this member is behind.
    fn replication(&self) -> String {
        let standing = &self.member.standing;
        let (of, applied) = self
            .replica
            .at
            .map_or((0, 0), |at| (at.generation, at.number));
        // of a list in which nothing is applied yet all of its entries are left
        let behind = match of == self.member.generation {
            true => standing.top.saturating_sub(applied),
            false => standing.top,
        };
        let mut text = String::new();
        let mut line = |key: &str, value: &dyn std::fmt::Display| {
            // writing to a string can't fail
            let _ = write!(text, "{key}:{value}\r\n");
        };
        line("role", &"master");
        line("connected_slaves", &0);
        line("muoswyld_name", &self.member.name);
        line("muoswyld_generation", &self.member.generation);
        line("muoswyld_view", &standing.view);
        line("muoswyld_members", &standing.members);
        line("muoswyld_resilience", &standing.resilience);
        line("muoswyld_holders", &self.replica.holders);
        line("muoswyld_ready", &u8::from(self.replica.is_ready));
        line("muoswyld_applied_generation", &of);
        line("muoswyld_applied", &applied);
        line("muoswyld_top", &standing.top);
        line("muoswyld_lag", &behind);
        line("muoswyld_silent", &self.member.silent);
        let reads = if self.are_ordered { "ordered" } else { "local" };
        line("muoswyld_reads", &reads);
        if let Some((at, digest)) = self.replica.checked {
            line("muoswyld_checked_generation", &at.generation);
            line("muoswyld_checked", &at.number);
            line("muoswyld_digest", &format_args!("{digest:016x}"));
        }
        text
    }

    fn keyspace(&self) -> String {
        match self.keys {
            0 => String::new(),
            keys => format!("db0:keys={keys},expires=0,avg_ttl=0\r\n"),
        }
    }

    /// CONFIG GET of some patterns.
    pub fn config(&self, patterns: &[Vec<u8>]) -> Vec<u8> {
        let all = [
            ("save", String::new()),
            ("appendonly", "no".into()),
            ("databases", "1".into()),
            ("maxclients", self.most_clients.to_string()),
            ("maxmemory", self.most.to_string()),
            ("maxmemory-policy", "noeviction".into()),
            ("port", self.port.to_string()),
            ("proto-max-bulk-len", MOST_VALUE.to_string()),
        ];
        let is_wanted = |key: &str| {
            let mut patterns = patterns.iter().map(|pattern| pattern.to_ascii_lowercase());
            patterns.any(|pattern| pattern::matches(&pattern, key.as_bytes()))
        };
        let chosen = all.iter().filter(|(key, _)| is_wanted(key));
        reply::bulks(chosen.flat_map(|(key, value)| [key.as_bytes(), value.as_bytes()]))
    }

    /// HELLO.
    pub fn hello(&self, client: u64) -> Vec<u8> {
        let text = |text: &str| reply::bulk(text.as_bytes());
        reply::array(&[
            text("server"),
            text("muoswyld-kv"),
            text("version"),
            text(SPEAKS),
            text("proto"),
            reply::integer(2),
            text("id"),
            reply::integer(i64::try_from(client).unwrap_or(i64::MAX)),
            text("mode"),
            text("standalone"),
            text("role"),
            text("master"),
            text("modules"),
            reply::array([]),
        ])
    }
}

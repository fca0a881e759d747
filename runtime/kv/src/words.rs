//! The commands of the Redis protocol: their words, and what is asked by them.

use crate::op::{Op, When};
use crate::resp::{integer, reply};
use crate::store::SCAN_COUNT;

/// What a client asks.
#[derive(Clone, Debug, PartialEq, Eq)]
pub enum Asked {
    /// Something of the store, or a reply that is known already.
    Op(Op),
    /// The state of the server, of these sections; of all if there are none.
    Info(Vec<String>),
    /// Settings of these patterns.
    Config(Vec<Vec<u8>>),
    /// Who the server is.
    Hello,
    /// Operations are collected from here on.
    Multi,
    /// They are done.
    Exec,
    /// They are forgotten.
    Discard,
    /// The connection ends.
    Quit,
}

/// A command: its name; how many words it has with that, at least so many if it is below 0; its flags; and where its keys stand: the
/// first, the last, and the step.
pub struct Known {
    /// Its name.
    pub name: &'static str,
    words: i64,
    flags: &'static [&'static str],
    keys: [i64; 3],
}

const WRITES: &[&str] = &["write", "denyoom", "fast"];
const DELETES: &[&str] = &["write"];
const READS: &[&str] = &["readonly", "fast"];
const LISTS: &[&str] = &["readonly"];
const TALKS: &[&str] = &["fast", "loading", "stale"];

const fn known(
    name: &'static str,
    words: i64,
    flags: &'static [&'static str],
    keys: [i64; 3],
) -> Known {
    Known {
        name,
        words,
        flags,
        keys,
    }
}

const NONE: [i64; 3] = [0, 0, 0];
const FIRST: [i64; 3] = [1, 1, 1];
const ALL: [i64; 3] = [1, -1, 1];

/// The commands.
pub const KNOWN: &[Known] = &[
    known("append", 3, WRITES, FIRST),
    known("command", -1, TALKS, NONE),
    known("config", -2, TALKS, NONE),
    known("dbsize", 1, READS, NONE),
    known("decr", 2, WRITES, FIRST),
    known("decrby", 3, WRITES, FIRST),
    known("del", -2, DELETES, ALL),
    known("discard", 1, TALKS, NONE),
    known("echo", 2, TALKS, NONE),
    known("exec", 1, TALKS, NONE),
    known("exists", -2, READS, ALL),
    known("flushall", -1, DELETES, NONE),
    known("get", 2, READS, FIRST),
    known("getdel", 2, DELETES, FIRST),
    known("hello", -1, TALKS, NONE),
    known("incr", 2, WRITES, FIRST),
    known("incrby", 3, WRITES, FIRST),
    known("info", -1, TALKS, NONE),
    known("keys", 2, LISTS, NONE),
    known("mget", -2, READS, ALL),
    known("mset", -3, WRITES, [1, -1, 2]),
    known("multi", 1, TALKS, NONE),
    known("ping", -1, TALKS, NONE),
    known("quit", -1, TALKS, NONE),
    known("scan", -2, LISTS, NONE),
    known("set", -3, WRITES, FIRST),
    known("setnx", 3, WRITES, FIRST),
    known("strlen", 2, READS, FIRST),
];

/// Why a command isn't done.
#[derive(Clone, Debug, PartialEq, Eq)]
pub struct Wrong {
    /// The error as Redis words it.
    pub text: String,
    /// Whether a transaction is spoilt by it: there is no such command, or it has too few or too many words. Any other error comes where
    /// the command would be done.
    pub spoils: bool,
}

impl From<&str> for Wrong {
    fn from(text: &str) -> Wrong {
        Wrong {
            text: text.into(),
            spoils: false,
        }
    }
}

fn spoils(text: String) -> Wrong {
    Wrong { text, spoils: true }
}

const SYNTAX: &str = "ERR syntax error";
const NO_INTEGER: &str = "ERR value is not an integer or out of range";

fn shown(word: &[u8]) -> String {
    String::from_utf8_lossy(word).into_owned()
}

fn unknown(words: &[Vec<u8>]) -> Wrong {
    let name: String = shown(&words[0]).chars().take(128).collect();
    let mut args = String::new();
    for word in &words[1..] {
        if args.len() >= 128 {
            break;
        }
        let room = 128 - args.len();
        let word: String = shown(word).chars().take(room).collect();
        args.push_str(&format!("'{word}' "));
    }
    spoils(format!(
        "ERR unknown command '{name}', with args beginning with: {args}"
    ))
}

fn arity(name: &str) -> Wrong {
    spoils(format!(
        "ERR wrong number of arguments for '{name}' command"
    ))
}

/// What some words ask; there is one at least.
pub fn asked(words: &[Vec<u8>]) -> Result<Asked, Wrong> {
    let name = words[0].to_ascii_lowercase();
    let known = KNOWN.iter().find(|known| known.name.as_bytes() == name);
    let known = known.ok_or_else(|| unknown(words))?;
    let count = words.len() as i64;
    if (known.words > 0 && count != known.words) || count < -known.words {
        return Err(arity(known.name));
    }
    let rest = &words[1..];
    let op = match known.name {
        "command" => Op::Say(command(rest)?),
        "config" => return config(rest),
        "discard" => return Ok(Asked::Discard),
        "exec" => return Ok(Asked::Exec),
        "hello" => return hello(rest),
        "info" => return Ok(Asked::Info(sections(rest))),
        "multi" => return Ok(Asked::Multi),
        "quit" => return Ok(Asked::Quit),
        "ping" => Op::Say(match rest {
            [] => reply::status("PONG"),
            [message] => reply::bulk(message),
            _ => return Err(arity("ping")),
        }),
        "echo" => Op::Say(reply::bulk(&rest[0])),
        other => of_store(other, rest)?,
    };
    Ok(Asked::Op(op))
}

/// An operation of the store, whose words are as many as it wants.
fn of_store(name: &str, rest: &[Vec<u8>]) -> Result<Op, Wrong> {
    let key = || rest.first().cloned().unwrap_or_default();
    let second = || rest.get(1).cloned().unwrap_or_default();
    let number = || integer(&second()).ok_or(NO_INTEGER);
    Ok(match name {
        "append" => Op::Append(key(), second()),
        "dbsize" => Op::Count,
        "decr" => Op::Add(key(), -1),
        "decrby" => {
            let less = number()?.checked_neg();
            Op::Add(key(), less.ok_or("ERR decrement would overflow")?)
        }
        "del" => Op::Delete(rest.to_vec()),
        "exists" => Op::Exists(rest.to_vec()),
        "flushall" => match rest {
            [] => Op::Clear,
            [how] if ["sync", "async"].iter().any(|word| is(how, word)) => Op::Clear,
            _ => return Err(SYNTAX.into()),
        },
        "get" => Op::Get(key()),
        "getdel" => Op::Take(key()),
        "incr" => Op::Add(key(), 1),
        "incrby" => Op::Add(key(), number()?),
        "keys" => Op::Keys(key()),
        "mget" => Op::GetMany(rest.to_vec()),
        "mset" if rest.len().is_multiple_of(2) => Op::SetMany(rest.to_vec()),
        "mset" => return Err(arity("mset")),
        "scan" => scan(rest)?,
        "set" => set(rest)?,
        "setnx" => Op::SetNew(key(), second()),
        _ => Op::Length(key()),
    })
}

fn is(word: &[u8], name: &str) -> bool {
    word.eq_ignore_ascii_case(name.as_bytes())
}

fn set(rest: &[Vec<u8>]) -> Result<Op, Wrong> {
    let (mut when, mut get) = (When::Always, false);
    for word in &rest[2..] {
        match when {
            When::Always if is(word, "nx") => when = When::Absent,
            When::Always if is(word, "xx") => when = When::Present,
            When::Absent if is(word, "nx") => {}
            When::Present if is(word, "xx") => {}
            _ if is(word, "get") => get = true,
            _ => return Err(SYNTAX.into()),
        }
    }
    Ok(Op::Set {
        key: rest[0].clone(),
        value: rest[1].clone(),
        when,
        get,
    })
}

fn scan(rest: &[Vec<u8>]) -> Result<Op, Wrong> {
    let cursor = std::str::from_utf8(&rest[0]).ok();
    let cursor = cursor.and_then(|cursor| cursor.parse().ok());
    let cursor = cursor.ok_or("ERR invalid cursor")?;
    let (mut pattern, mut count, mut nothing) = (None, SCAN_COUNT, false);
    for option in rest[1..].chunks(2) {
        let [word, value] = option else {
            return Err(SYNTAX.into());
        };
        match () {
            () if is(word, "match") => pattern = Some(value.clone()),
            () if is(word, "count") => {
                let number = integer(value).ok_or(NO_INTEGER)?;
                let number = u64::try_from(number).ok().filter(|number| *number > 0);
                count = number.ok_or(SYNTAX)?;
            }
            () if is(word, "type") => nothing = !is(value, "string"),
            () => return Err(SYNTAX.into()),
        }
    }
    Ok(Op::Scan {
        cursor,
        pattern,
        count,
        nothing,
    })
}

fn sections(rest: &[Vec<u8>]) -> Vec<String> {
    rest.iter()
        .map(|word| shown(word).to_lowercase())
        .filter(|word| !matches!(word.as_str(), "all" | "default" | "everything"))
        .collect()
}

fn config(rest: &[Vec<u8>]) -> Result<Asked, Wrong> {
    match rest {
        [verb, patterns @ ..] if is(verb, "get") && !patterns.is_empty() => {
            Ok(Asked::Config(patterns.to_vec()))
        }
        [verb] if is(verb, "get") => Err(arity("config|get")),
        _ => Err(spoils(format!(
            "ERR unknown subcommand '{}'. Try CONFIG HELP.",
            shown(&rest[0])
        ))),
    }
}

fn hello(rest: &[Vec<u8>]) -> Result<Asked, Wrong> {
    let Some(version) = rest.first() else {
        return Ok(Asked::Hello);
    };
    match integer(version) {
        Some(2) if rest.len() == 1 => Ok(Asked::Hello),
        Some(2) => Err(SYNTAX.into()),
        Some(_) => Err("NOPROTO unsupported protocol version".into()),
        None => Err("ERR Protocol version is not an integer or out of range".into()),
    }
}

/// What is told of a command.
fn about(known: &Known) -> Vec<u8> {
    let flags: Vec<Vec<u8>> = known.flags.iter().map(|flag| reply::status(flag)).collect();
    let mut parts = vec![
        reply::bulk(known.name.as_bytes()),
        reply::integer(known.words),
        reply::array(&flags),
    ];
    parts.extend(known.keys.map(reply::integer));
    // no categories, tips, key specifications or subcommands are told
    parts.extend((0..4).map(|_| reply::array([])));
    reply::array(&parts)
}

fn command(rest: &[Vec<u8>]) -> Result<Vec<u8>, Wrong> {
    let Some((verb, names)) = rest.split_first() else {
        let all: Vec<Vec<u8>> = KNOWN.iter().map(about).collect();
        return Ok(reply::array(&all));
    };
    let find = |name: &Vec<u8>| KNOWN.iter().find(|known| is(name, known.name));
    match () {
        () if is(verb, "count") && names.is_empty() => Ok(reply::integer(KNOWN.len() as i64)),
        () if is(verb, "docs") => Ok(reply::array([])),
        () if is(verb, "list") && names.is_empty() => Ok(reply::bulks(
            KNOWN.iter().map(|known| known.name.as_bytes()),
        )),
        () if is(verb, "info") && names.is_empty() => command(&[]),
        () if is(verb, "info") => {
            let none = || b"*-1\r\n".to_vec();
            let all = names.iter().map(|name| find(name).map_or_else(none, about));
            Ok(reply::array(&all.collect::<Vec<_>>()))
        }
        () => Err(spoils(format!(
            "ERR unknown subcommand '{}'. Try COMMAND HELP.",
            shown(verb)
        ))),
    }
}

#[cfg(test)]
mod tests {
    use super::*;
    use proptest::prelude::*;

    fn of(line: &str) -> Result<Asked, Wrong> {
        let words: Vec<Vec<u8>> = line.split(' ').map(|word| word.into()).collect();
        asked(&words)
    }

    fn op(line: &str) -> Op {
        match of(line) {
            Ok(Asked::Op(op)) => op,
            other => panic!("{line}: {other:?}"),
        }
    }

    #[test]
    fn words_are_read_in_either_case() {
        assert_eq!(op("GeT k"), Op::Get(b"k".to_vec()));
        let set = Op::Set {
            key: b"k".to_vec(),
            value: b"v".to_vec(),
            when: When::Absent,
            get: true,
        };
        assert_eq!(op("set k v nX GET"), set);
        assert_eq!(op("decrby k -5"), Op::Add(b"k".to_vec(), 5));
        assert_eq!(op("PING"), Op::Say(b"+PONG\r\n".to_vec()));
        let scan = Op::Scan {
            cursor: 7,
            pattern: Some(b"a*".to_vec()),
            count: 3,
            nothing: false,
        };
        assert_eq!(op("scan 7 count 3 match a* type String"), scan);
        assert_eq!(of("hello 2"), Ok(Asked::Hello));
        assert_eq!(of("exec"), Ok(Asked::Exec));
    }

    #[test]
    fn errors_are_as_in_redis() {
        for (line, error) in [
            (
                "foo a b",
                "ERR unknown command 'foo', with args beginning with: 'a' 'b' ",
            ),
            (
                "Foo",
                "ERR unknown command 'Foo', with args beginning with: ",
            ),
            ("get", "ERR wrong number of arguments for 'get' command"),
            ("GET a b", "ERR wrong number of arguments for 'get' command"),
            (
                "mset a 1 b",
                "ERR wrong number of arguments for 'mset' command",
            ),
            (
                "ping a b",
                "ERR wrong number of arguments for 'ping' command",
            ),
            ("set k v nx xx", "ERR syntax error"),
            ("set k v ex 5", "ERR syntax error"),
            ("incrby k x", "ERR value is not an integer or out of range"),
            (
                "decrby k -9223372036854775808",
                "ERR decrement would overflow",
            ),
            ("scan x", "ERR invalid cursor"),
            ("scan 0 count 0", "ERR syntax error"),
            ("scan 0 match", "ERR syntax error"),
            ("hello 3", "NOPROTO unsupported protocol version"),
            (
                "hello x",
                "ERR Protocol version is not an integer or out of range",
            ),
            (
                "config set a b",
                "ERR unknown subcommand 'set'. Try CONFIG HELP.",
            ),
            (
                "config get",
                "ERR wrong number of arguments for 'config|get' command",
            ),
            ("command x", "ERR unknown subcommand 'x'. Try COMMAND HELP."),
            ("flushall now", "ERR syntax error"),
        ] {
            assert_eq!(of(line).unwrap_err().text, error, "{line}");
        }
    }

    #[test]
    fn commands_are_in_order_and_told() {
        assert!(KNOWN.windows(2).all(|two| two[0].name < two[1].name));
        let count = format!(":{}\r\n", KNOWN.len());
        assert_eq!(op("command count"), Op::Say(count.into_bytes()));
        let Op::Say(reply) = op("command info get nothing") else {
            panic!("a reply");
        };
        assert!(reply.starts_with(b"*2\r\n*10\r\n$3\r\nget\r\n:2\r\n*2\r\n+readonly\r\n"));
        assert!(reply.ends_with(b"*-1\r\n"));
    }

    proptest! {
        #[test]
        fn any_words_are_read_or_refused(
            known in 0..KNOWN.len(),
            rest in prop::collection::vec(prop::collection::vec(any::<u8>(), 0..5), 0..5),
        ) {
            let words = [vec![KNOWN[known].name.as_bytes().to_vec()], rest].concat();
            if let Ok(Asked::Op(op)) = asked(&words) {
                prop_assert_eq!(Op::read(&op.bytes()), Some(op));
            }
        }
    }
}

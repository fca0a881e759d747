//! What a member of a group is started with.

use crate::addresses::{Addresses, BadAddress};
use crate::failures::{FailureSettings, Policy};
use crate::later::LaterList;
use crate::seal::Key;
use muoswyld::names::{Name, Names};
use muoswyld_member::{Delivery, Founding, Limits, Notice};
use std::fmt;
use std::net::SocketAddr;
use std::path::PathBuf;
use std::sync::Arc;
use std::time::Duration;

/// A function that a member calls on its own thread.
pub(crate) struct Callback<T>(pub(crate) Arc<dyn Fn(T) + Send + Sync>);

impl<T> Clone for Callback<T> {
    fn clone(&self) -> Callback<T> {
        Callback(self.0.clone())
    }
}

impl<T> fmt::Debug for Callback<T> {
    fn fmt(&self, f: &mut fmt::Formatter<'_>) -> fmt::Result {
        f.write_str("Callback")
    }
}

/// The settings of a member of a group. All members of a group are given the same founders, resilience, window,
/// `pb_up_to` and key.
///
/// ```no_run
/// use muoswyld_group::{Config, Key};
///
/// let key = Key::random()?; // made once, and given to all members
/// let config = Config::new("1".parse()?, "0,1,2".parse()?)
///     .resilience(1)
///     .address(0, "10.0.0.1:7000".parse()?)?
///     .address(1, "10.0.0.2:7000".parse()?)?
///     .address(2, "10.0.0.3:7000".parse()?)?
///     .key(key);
/// # Ok::<(), Box<dyn std::error::Error>>(())
/// ```
#[derive(Clone, Debug)]
pub struct Config {
    pub(crate) name: Name,
    pub(crate) founding: Founding,
    /// Which list of the group it begins in; None: the first one.
    pub(crate) list: Option<LaterList>,
    pub(crate) addresses: Addresses,
    pub(crate) bind: Option<SocketAddr>,
    pub(crate) key: Option<Key>,
    pub(crate) insecure: bool,
    pub(crate) least: Option<u8>,
    pub(crate) most_waiting: usize,
    pub(crate) most_unreceived: usize,
    pub(crate) datagram: usize,
    pub(crate) tick: Duration,
    pub(crate) spin: Duration,
    pub(crate) journal: Option<PathBuf>,
    pub(crate) start_within: Option<Duration>,
    pub(crate) succeed_at: Option<Limits>,
    pub(crate) failures: FailureSettings,
    pub(crate) on_notice: Option<Callback<Notice>>,
    pub(crate) on_delivery: Option<Callback<Delivery>>,
    pub(crate) on_arrival: Option<Callback<()>>,
}

impl Config {
    /// A member of this name in a group with these founders. The resilience is 0, the window 256, and bodies of up to 1,024
    /// bytes go by the sequencer.
    pub fn new(name: Name, founders: Names) -> Config {
        Config {
            name,
            founding: Founding {
                founders,
                resilience: 0,
                window: 256,
                pb_up_to: 1024,
            },
            list: None,
            addresses: Addresses::new(),
            bind: None,
            key: None,
            insecure: false,
            least: None,
            most_waiting: 4 << 20,
            most_unreceived: 4_096,
            datagram: 1_400,
            tick: Duration::from_millis(50),
            spin: Duration::ZERO,
            journal: None,
            start_within: None,
            succeed_at: None,
            failures: FailureSettings::default(),
            on_notice: None,
            on_delivery: None,
            on_arrival: None,
        }
    }

    /// How many members may stop between two resets, 0 to 15, so that nothing which was given out is lost.
    pub fn resilience(mut self, resilience: u8) -> Config {
        self.founding.resilience = resilience;
        self
    }

    /// How many entries may wait for the slowest member, 1 to 1,008.
    pub fn window(mut self, window: u16) -> Config {
        self.founding.window = window;
        self
    }

    /// The longest body that goes by the sequencer, 0 to 1,024 bytes; a longer one goes to all, and its number alone by the
    /// sequencer, which pays if the network has multicast.
    pub fn pb_up_to(mut self, bytes: u16) -> Config {
        self.founding.pb_up_to = bytes;
        self
    }

    /// Has the member begin in a list of the group that follows another one, as [`next_life`](crate::next_life) and
    /// [`Facts`](crate::Facts) give it: its founders, numbers and voters are those of that list.
    pub fn later(mut self, list: LaterList) -> Config {
        self.founding = list.founding;
        self.failures.voters = Some(list.voters).filter(|voters| !voters.is_empty());
        self.list = Some(list);
        self
    }

    /// How many lists of the group came before the one in which it begins.
    pub(crate) fn generation(&self) -> u32 {
        self.list.map_or(0, |list| list.generation)
    }

    /// The address of a place, of IPv4 or IPv6. It is an error if the place or the address has one already.
    pub fn address(mut self, place: u8, address: SocketAddr) -> Result<Config, BadAddress> {
        self.addresses.add(place, address)?;
        Ok(self)
    }

    /// The address to bind, if it isn't the one at which the others reach this member.
    pub fn bind(mut self, address: SocketAddr) -> Config {
        self.bind = Some(address);
        self
    }

    /// The group's key: datagrams are sealed by it, and others are dropped.
    pub fn key(mut self, key: Key) -> Config {
        self.key = Some(key);
        self
    }

    /// Allows a group without a key. Whoever reaches a member's address can then read all, and end the group.
    pub fn insecure(mut self) -> Config {
        self.insecure = true;
        self
    }

    /// The fewest members that a reset goes on with, 1 to 16. A majority of the last view if it isn't set.
    pub fn least(mut self, members: u8) -> Config {
        self.least = Some(members);
        self
    }

    /// How many bytes of messages may wait to be sent (4 MiB).
    pub fn most_waiting(mut self, bytes: usize) -> Config {
        self.most_waiting = bytes;
        self
    }

    /// How many deliveries may wait to be received before the group is held back (4,096).
    pub fn most_unreceived(mut self, deliveries: usize) -> Config {
        self.most_unreceived = deliveries.max(1);
        self
    }

    /// The longest payload of a datagram, 1,232 to 65,000 bytes (1,400).
    pub fn datagram(mut self, bytes: usize) -> Config {
        self.datagram = bytes;
        self
    }

    /// For how long the member's thread looks for more, before it sleeps, after it had something to do: 0 (the default) to 100 ms.
    /// This takes a processor meanwhile, and saves the time of waking up at each hop of a message.
    pub fn spin(mut self, spin: Duration) -> Config {
        self.spin = spin.min(Duration::from_millis(100));
        self
    }

    /// How often an idle member ticks (50 ms).
    pub fn tick(mut self, every: Duration) -> Config {
        self.tick = every;
        self
    }

    /// Has the list end by itself, and another one follow it, before a place's lives or the numbers run out. If it isn't set the list ends only
    /// by [`Group::succeed`](crate::Group::succeed).
    pub fn succeed_at(mut self, limits: Limits) -> Config {
        self.succeed_at = Some(limits);
        self
    }

    /// A new file in which the member writes what its node was given and what it answered, so that the run can be judged. What it writes of
    /// the list of generation 1 goes to a file with `.1` after its name, and so on.
    pub fn journal(mut self, file: PathBuf) -> Config {
        self.journal = Some(file);
        self
    }

    /// How long `create` and `join` wait at most until the member is in the group; without end if it isn't set.
    pub fn start_within(mut self, time: Duration) -> Config {
        self.start_within = Some(time);
        self
    }

    /// What makes it certain that a name has stopped. If it isn't set it is [`Policy::Echo`] if voters and a folder of state are set, and
    /// else [`Policy::Told`].
    pub fn policy(mut self, policy: Policy) -> Config {
        self.failures.policy = Some(policy);
        self
    }

    /// The places that vote who has stopped: some of the founders, odd in number; all founders if it isn't set.
    pub fn voters(mut self, voters: Names) -> Config {
        self.failures.voters = Some(voters);
        self
    }

    /// The place's folder of state, on a local disk, as [`Group::found`](crate::Group::found) makes it: which life was begun last, and
    /// whom the place has refused. With it no life runs twice, and no two processes of the place run at a time.
    pub fn state(mut self, folder: PathBuf) -> Config {
        self.failures.state = Some(folder);
        self
    }

    /// Between two heartbeats (100 ms), where the policy has them.
    pub fn heartbeat(mut self, every: Duration) -> Config {
        self.failures.period = every;
        self
    }

    /// How much the time differs that datagrams take, usually (50 ms).
    pub fn delay(mut self, delay: Duration) -> Config {
        self.failures.delay = delay;
        self
    }

    /// After how long a silent name is suspected; the shortest time that may be if it isn't set.
    pub fn silence(mut self, silence: Duration) -> Config {
        self.failures.silence = Some(silence);
        self
    }

    /// Calls this with notices for an operator: which members are silent or slow, and which were left out and why. It runs on the member's
    /// thread, and must not wait. If it isn't set, notices go to the log.
    pub fn on_notice(mut self, call: impl Fn(Notice) + Send + Sync + 'static) -> Config {
        self.on_notice = Some(Callback(Arc::new(call)));
        self
    }

    /// Calls this with each delivery in place of [`receive`](crate::Group::receive). It runs on the member's thread, which saves
    /// the way to another one: it must not wait, and must not call this member.
    pub fn on_delivery(mut self, call: impl Fn(Delivery) + Send + Sync + 'static) -> Config {
        self.on_delivery = Some(Callback(Arc::new(call)));
        self
    }

    /// Calls this when deliveries are there to be received, and once the member has ended: for a caller that waits for other things
    /// too. It runs on the member's thread, and must not wait.
    pub fn on_arrival(mut self, call: impl Fn() + Send + Sync + 'static) -> Config {
        self.on_arrival = Some(Callback(Arc::new(move |()| call())));
        self
    }
}

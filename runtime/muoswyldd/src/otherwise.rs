//! The words that say what the next list of a group has otherwise.

use clap::Args;
use muoswyld_group::{Names, NextList};

/// What the next list of a group has otherwise.
#[derive(Debug, Args)]
pub struct Otherwise {
    /// How many members may stop between two resets, 0 to 15
    #[arg(long, value_name = "N")]
    pub resilience: Option<u8>,
    /// How many entries may wait for the slowest member, 1 to 1008
    #[arg(long, value_name = "N")]
    pub window: Option<u16>,
    /// Up to how many bytes a body goes by the sequencer, 0 to 1024
    #[arg(long, value_name = "BYTES")]
    pub pb_up_to: Option<u16>,
    /// The places that vote who has stopped: members' places, odd in number, as 0,1,2
    #[arg(long, value_name = "PLACES")]
    pub voters: Option<Names>,
}

impl Otherwise {
    /// The same, for a member.
    pub fn list(&self) -> NextList {
        let mut next = NextList::new();
        if let Some(resilience) = self.resilience {
            next = next.resilience(resilience);
        }
        if let Some(window) = self.window {
            next = next.window(window);
        }
        if let Some(bytes) = self.pb_up_to {
            next = next.pb_up_to(bytes);
        }
        if let Some(voters) = self.voters {
            next = next.voters(voters);
        }
        next
    }
}

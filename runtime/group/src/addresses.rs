//! Where the places of a group are.

use std::net::SocketAddr;
use thiserror::Error;

/// Why an address can't be one of a place.
#[derive(Clone, Copy, Debug, PartialEq, Eq, Error)]
pub enum BadAddress {
    /// There are places 0 to 15.
    #[error("there is no place {0}: places are 0 to 15")]
    NoPlace(u8),
    /// The place has an address already.
    #[error("place {0} has two addresses")]
    Twice(u8),
    /// Another place has this address.
    #[error("{0} is the address of two places")]
    Shared(SocketAddr),
    /// One address is of IPv4 and another of IPv6.
    #[error(
        "{0} is of another kind than the addresses before it: all are of IPv4, or all of IPv6"
    )]
    Mixed(SocketAddr),
}

/// The address of each place that has one: all of IPv4, or all of IPv6, no two the same.
#[derive(Clone, Debug, Default, PartialEq, Eq)]
pub struct Addresses {
    known: Vec<(u8, SocketAddr)>,
}

impl Addresses {
    /// No addresses.
    pub fn new() -> Addresses {
        Addresses::default()
    }

    /// Adds the address of a place. After an error nothing has changed.
    pub fn add(&mut self, place: u8, address: SocketAddr) -> Result<(), BadAddress> {
        if place > 15 {
            return Err(BadAddress::NoPlace(place));
        }
        for (other, taken) in &self.known {
            if *other == place {
                return Err(BadAddress::Twice(place));
            }
            if *taken == address {
                return Err(BadAddress::Shared(address));
            }
            if taken.is_ipv4() != address.is_ipv4() {
                return Err(BadAddress::Mixed(address));
            }
        }
        self.known.push((place, address));
        Ok(())
    }

    /// The address of a place.
    pub fn of(&self, place: u8) -> Option<SocketAddr> {
        self.iter()
            .find(|(known, _)| *known == place)
            .map(|(_, address)| address)
    }

    /// All of them.
    pub fn iter(&self) -> impl Iterator<Item = (u8, SocketAddr)> + '_ {
        self.known.iter().copied()
    }
}

#[cfg(test)]
mod tests {
    use super::*;

    fn address(text: &str) -> SocketAddr {
        text.parse().unwrap()
    }

    #[test]
    fn each_place_has_an_address_of_its_own() {
        let mut known = Addresses::new();
        assert_eq!(known.add(0, address("127.0.0.1:7000")), Ok(()));
        assert_eq!(
            known.add(16, address("127.0.0.1:7001")),
            Err(BadAddress::NoPlace(16))
        );
        assert_eq!(
            known.add(0, address("127.0.0.1:7001")),
            Err(BadAddress::Twice(0))
        );
        let taken = address("127.0.0.1:7000");
        assert_eq!(known.add(1, taken), Err(BadAddress::Shared(taken)));
        let other = address("[::1]:7000");
        assert_eq!(known.add(1, other), Err(BadAddress::Mixed(other)));
        assert_eq!(known.add(15, address("127.0.0.1:7001")), Ok(()));
        assert_eq!(known.of(15), Some(address("127.0.0.1:7001")));
        assert_eq!(known.of(1), None);
    }
}

//! Letters on their way out: those of one batch that go to one place share datagrams.

use crate::frame::{begin, most_letter, push_letter, Letter, Speaker};
use crate::packet::{front_of, view_of, Front};
use muoswyld::answer::Packet;
use muoswyld::event::To;
use muoswyld::names::{Name, Names, PLACES};

#[derive(Debug)]
struct Kept {
    number: u32,
    packet: Packet,
}

/// The letters of a batch, in their order.
#[derive(Debug, Default)]
pub(crate) struct Outbox {
    letters: Vec<Kept>,
}

impl Outbox {
    pub(crate) fn push(&mut self, number: u32, packet: Packet) {
        self.letters.push(Kept { number, packet });
    }

    pub(crate) fn is_empty(&self) -> bool {
        self.letters.is_empty()
    }

    /// The places that letters go to, but for the own one.
    fn places(&self, own: u8) -> u16 {
        let places = self.letters.iter().fold(0, |places, kept| {
            let (mask, _) = kept.packet.to.names.parts();
            places | mask
        });
        places & !(1 << own)
    }

    /// Which letters go to a place, by their indices. One is left out that tells a front alone, if a later one tells that front too, of
    /// the same view: fronts never go back, and any letter may get lost.
    fn letters_to(&self, place: u8) -> Vec<usize> {
        let mut found = Vec::new();
        let mut later: [Option<(Front, To, &[u8])>; 2] = [None; 2];
        for k in (0..self.letters.len()).rev() {
            let packet = &self.letters[k].packet;
            let Some(name) = packet.to.names.at(place) else {
                continue;
            };
            if let Some((front, is_alone)) = front_of(&packet.bytes) {
                let names = Names::nobody().with(name);
                let to = To { names, ..packet.to };
                let told = Some((front, to, view_of(&packet.bytes)));
                if is_alone && later.contains(&told) {
                    continue;
                }
                later[front as usize] = told;
            }
            found.push(k);
        }
        found.reverse();
        found
    }

    /// Places that get the same letters, with these. The own place gets none.
    fn groups(&self, own: u8) -> Vec<(Names, Vec<usize>)> {
        let mut groups: Vec<(Names, Vec<usize>)> = Vec::new();
        let places = self.places(own);
        for place in (0..PLACES).filter(|place| places >> place & 1 == 1) {
            let letters = self.letters_to(place);
            let Some(last) = letters.last() else {
                continue;
            };
            let name = self.letters[*last].packet.to.names.at(place);
            let Some(name) = name.or(Name::first(place)) else {
                continue;
            };
            match groups.iter_mut().find(|(_, those)| *those == letters) {
                Some((names, _)) => *names = names.with(name),
                None => groups.push((Names::nobody().with(name), letters)),
            }
        }
        groups
    }

    /// The datagrams of the letters, each of at most so many bytes, and to whom each goes. Nothing is kept. What a later letter covers is
    /// left out.
    pub(crate) fn take(&mut self, group: u64, from: Speaker, most: usize) -> Vec<(Names, Vec<u8>)> {
        let mut datagrams = Vec::new();
        for (names, letters) in self.groups(from.name.place()) {
            let mut payload: Option<Vec<u8>> = None;
            for kept in letters.into_iter().map(|k| &self.letters[k]) {
                let letter = Letter {
                    number: kept.number,
                    to: kept.packet.to,
                    packet: &kept.packet.bytes,
                };
                let size = most_letter(letter.packet.len());
                if let Some(full) = payload.take_if(|payload| payload.len() + size > most) {
                    datagrams.push((names, full));
                }
                let payload = payload.get_or_insert_with(|| begin(group, from, most));
                push_letter(payload, &letter);
            }
            datagrams.extend(payload.map(|payload| (names, payload)));
        }
        self.letters.clear();
        datagrams
    }
}

#[cfg(test)]
mod tests {
    use super::*;
    use crate::frame::{read, Frame};

    const ME: Speaker = Speaker {
        name: Name::of_byte(2),
        process: 7,
    };

    fn packet(to: &str, length: usize) -> Packet {
        Packet {
            to: To {
                any: false,
                names: to.parse().expect("names"),
            },
            bytes: vec![0; length],
        }
    }

    fn sent(packets: Vec<Packet>, most: usize) -> Vec<(String, Vec<u32>)> {
        let mut outbox = Outbox::default();
        for (k, packet) in packets.into_iter().enumerate() {
            outbox.push(k as u32, packet);
        }
        let datagrams = outbox.take(1, ME, most);
        assert!(outbox.is_empty());
        datagrams
            .into_iter()
            .map(|(to, payload)| {
                assert!(payload.len() <= most);
                let Some(Frame::Letters { letters, .. }) = read(&payload) else {
                    panic!("letters");
                };
                (to.to_string(), letters.map(|l| l.number).collect())
            })
            .collect()
    }

    #[test]
    fn places_with_the_same_letters_share_a_datagram() {
        let all = sent(vec![packet("0,1,3/2", 20), packet("0,1,3/2", 30)], 1400);
        assert_eq!(all, [("0,1,3/2".to_string(), vec![0, 1])]);
        let some = sent(vec![packet("0,1", 20), packet("1", 30)], 1400);
        assert_eq!(
            some,
            [("0".to_string(), vec![0]), ("1".to_string(), vec![0, 1])]
        );
    }

    /// A packet of a kind in a view, with a last byte.
    fn told(to: &str, kind: u8, round: u8, last: u8) -> Packet {
        let mut packet = packet(to, if kind == 5 { 25 } else { 20 });
        packet.bytes[..4].copy_from_slice(&[0x41, 0x47, 3, kind]);
        packet.bytes[8] = round;
        if let Some(byte) = packet.bytes.last_mut() {
            *byte = last;
        }
        packet
    }

    #[test]
    fn what_a_later_letter_covers_is_left_out() {
        let numbers = |packets: Vec<Packet>| {
            let mut sent = sent(packets, 1400);
            sent.pop().map(|(_, numbers)| numbers)
        };
        let (ack, request, nack, bcast, accept) = (6, 1, 7, 3, 5);
        for later in [ack, request, nack] {
            let packets = vec![told("0", ack, 1, 4), told("0", later, 1, 5)];
            assert_eq!(numbers(packets), Some(vec![1]), "{later}");
        }
        for later in [accept, bcast, 4] {
            let packets = vec![told("0,1", accept, 1, 0), told("0,1", later, 1, 0)];
            assert_eq!(numbers(packets), Some(vec![1]), "{later}");
        }
        let kept = [
            // of another view, for another life, only before, of another front, or wanted for an answer
            vec![told("0", ack, 1, 4), told("0", ack, 2, 4)],
            vec![told("0", ack, 1, 4), told("0/2", ack, 1, 4)],
            vec![told("0", request, 1, 4), told("0", ack, 1, 4)],
            vec![told("0", ack, 1, 4), told("0", accept, 1, 0)],
            vec![told("0", accept, 1, 1), told("0", bcast, 1, 0)],
            vec![told("0", bcast, 1, 0), told("0", accept, 1, 0)],
        ];
        for packets in kept {
            assert_eq!(numbers(packets), Some(vec![0, 1]));
        }
    }

    #[test]
    fn a_letter_is_left_out_only_where_it_is_covered() {
        let packets = vec![told("0,1", 5, 1, 0), told("1", 3, 1, 0)];
        let wanted = [("0".to_string(), vec![0]), ("1".to_string(), vec![1])];
        assert_eq!(sent(packets, 1400), wanted);
    }

    #[test]
    fn nothing_goes_to_the_own_place() {
        assert_eq!(sent(vec![packet("2", 20)], 1400), []);
        assert_eq!(sent(vec![], 1400), []);
    }

    #[test]
    fn a_datagram_has_its_limit() {
        let packets = vec![
            packet("0", 1152),
            packet("0", 20),
            packet("0", 600),
            packet("0", 600),
        ];
        let datagrams = sent(packets, 1232);
        let wanted: Vec<(String, Vec<u32>)> = vec![
            ("0".into(), vec![0, 1]),
            ("0".into(), vec![2]),
            ("0".into(), vec![3]),
        ];
        // 18 + 17 + 1,152 bytes are 1,187, and 37 more fit
        assert_eq!(datagrams, wanted);
    }
}

//! The few fields of a packet that a member looks at (docs/PROTOCOL.md, "Packets").

use muoswyld::names::Name;

/// The kinds of packets that a member treats on their own.
#[derive(Clone, Copy, Debug, PartialEq, Eq)]
pub(crate) enum Kind {
    /// Request, Spread, Ack and Nack: how far the sender stored and took the list.
    Report,
    /// A stranger asks to join.
    JoinAsk,
    /// A member asks to leave.
    LeaveAsk,
    /// A coordinator asks for a vote.
    Invite,
}

/// Its kind, if a member looks at it.
pub(crate) fn kind_of(packet: &[u8]) -> Option<Kind> {
    match packet.get(3)? {
        1 | 2 | 6 | 7 => Some(Kind::Report),
        9 => Some(Kind::JoinAsk),
        11 => Some(Kind::LeaveAsk),
        13 => Some(Kind::Invite),
        _ => None,
    }
}

/// What a packet tells of a front, which a later one to the same place may tell again.
#[derive(Clone, Copy, Debug, PartialEq, Eq)]
pub(crate) enum Front {
    /// How far the sender stored and took the list: Request, Ack and Nack.
    Reported,
    /// How far the list is accepted: Bcast, Order and Accept.
    Accepted,
}

/// The front that a packet tells, if it tells one, and whether it does nothing else: an Ack, and an Accept that asks for no answer.
pub(crate) fn front_of(packet: &[u8]) -> Option<(Front, bool)> {
    match packet.get(3)? {
        1 | 7 => Some((Front::Reported, false)),
        6 => Some((Front::Reported, true)),
        3 | 4 => Some((Front::Accepted, false)),
        5 => Some((Front::Accepted, packet.get(24) == Some(&0))),
        _ => None,
    }
}

/// The body that a packet carries, and whose it is: of a Request, a Spread, and of a Bcast and a Piece that have a Data. No other packet has one.
pub(crate) fn body_of(packet: &[u8]) -> Option<(Name, &[u8])> {
    const DATA: Option<&u8> = Some(&1);
    let (from, body) = match packet.get(3)? {
        1 | 2 => (4, 24),
        3 if packet.get(24) == DATA => (25, 30),
        16 if packet.get(20) == DATA => (21, 26),
        _ => return None,
    };
    Some((Name::of_byte(*packet.get(from)?), packet.get(body..)?))
}

/// The number of the entry that a packet tells of: a Bcast, an Order or a Piece.
pub(crate) fn numbered(packet: &[u8]) -> Option<u32> {
    match packet.get(3)? {
        3 | 4 => number_at(packet, 20),
        16 => number_at(packet, 16),
        _ => None,
    }
}

fn number_at(packet: &[u8], at: usize) -> Option<u32> {
    let bytes = packet.get(at..at + 4)?;
    Some(u32::from_be_bytes(bytes.try_into().ok()?))
}

/// Its stamp: a round and a name's byte.
pub(crate) fn stamp_of(packet: &[u8]) -> Option<(u32, u8)> {
    Some((number_at(packet, 5)?, *packet.get(9)?))
}

/// Its sender's byte and its stamp, as bytes.
pub(crate) fn view_of(packet: &[u8]) -> &[u8] {
    packet.get(4..10).unwrap_or_default()
}

/// The round of its stamp.
pub(crate) fn round_of(packet: &[u8]) -> Option<u32> {
    number_at(packet, 5)
}

/// Up to where the sender of a report took the list.
pub(crate) fn taken_of(packet: &[u8]) -> Option<u32> {
    number_at(packet, 16)
}

#[cfg(test)]
mod tests {
    use super::*;

    #[test]
    fn acks_and_unpolled_accepts_tell_a_front_alone() {
        let of = |kind: u8, length: usize, last: u8| {
            let mut packet = vec![0x41, 0x47, 3, kind];
            packet.resize(length, 0);
            packet[length - 1] = last;
            front_of(&packet)
        };
        assert_eq!(of(6, 20, 9), Some((Front::Reported, true)));
        assert_eq!(of(1, 24, 9), Some((Front::Reported, false)));
        assert_eq!(of(7, 20, 9), Some((Front::Reported, false)));
        assert_eq!(of(5, 25, 0), Some((Front::Accepted, true)));
        assert_eq!(of(5, 25, 1), Some((Front::Accepted, false)));
        assert_eq!(of(3, 26, 0), Some((Front::Accepted, false)));
        assert_eq!(of(4, 29, 0), Some((Front::Accepted, false)));
        assert_eq!((of(2, 24, 0), of(9, 12, 0)), (None, None));
    }

    #[test]
    fn bodies_are_where_the_page_has_them() {
        let of = |kind: u8, rest: &[u8]| {
            let mut packet = vec![0x41, 0x47, 3, kind, 7, 0, 0, 0, 3, 2, 0, 99];
            packet.extend(rest);
            body_of(&packet).map(|(name, body)| (name.byte(), body.to_vec()))
        };
        let body = b"body".to_vec();
        let request = [&[0; 12][..], &body].concat();
        assert_eq!(of(1, &request), Some((7, body.clone())));
        assert_eq!(of(2, &request), Some((7, body.clone())));
        let entry = |tag: u8| [&[tag, 0x21, 0, 0, 0, 9][..], b"body"].concat();
        let after = |fields: usize, tag: u8| [&vec![0; fields][..], &entry(tag)].concat();
        assert_eq!(of(3, &after(12, 1)), Some((0x21, body.clone())));
        assert_eq!(of(16, &after(8, 1)), Some((0x21, body)));
        for tag in 2..=4 {
            assert_eq!(
                (of(3, &after(12, tag)), of(16, &after(8, tag))),
                (None, None)
            );
        }
        for kind in (0..=20).filter(|kind| ![1, 2, 3, 16].contains(kind)) {
            assert_eq!(of(kind, &after(12, 1)), None, "{kind}");
        }
        assert_eq!(
            (of(1, &[0; 11]), of(3, &[0; 3]), of(16, &[])),
            (None, None, None)
        );
        assert_eq!(of(1, &[0; 12]), Some((7, vec![])));
    }

    #[test]
    fn entries_are_numbered_where_the_page_has_it() {
        let packet = |kind: u8| {
            let mut packet = vec![0x41, 0x47, 3, kind];
            packet.extend(4..40);
            packet
        };
        let (at_16, at_20) = (Some(0x1011_1213), Some(0x1415_1617));
        assert_eq!((numbered(&packet(3)), numbered(&packet(4))), (at_20, at_20));
        assert_eq!(numbered(&packet(16)), at_16);
        for kind in (0..=20).filter(|kind| ![3, 4, 16].contains(kind)) {
            assert_eq!(numbered(&packet(kind)), None, "{kind}");
        }
        assert_eq!(numbered(&packet(3)[..23]), None);
    }

    #[test]
    fn fields_are_where_the_page_has_them() {
        // a Request of name 1 in the view 3.2: stored 4, taken 5, request 6, body "a"
        let request = [
            0x41, 0x47, 3, 1, 1, 0, 0, 0, 3, 2, 0, 25, 0, 0, 0, 4, 0, 0, 0, 5, 0, 0, 0, 6, 0x61,
        ];
        assert_eq!(kind_of(&request), Some(Kind::Report));
        assert_eq!(stamp_of(&request), Some((3, 2)));
        assert_eq!((round_of(&request), taken_of(&request)), (Some(3), Some(5)));
        assert_eq!(kind_of(&[0x41, 0x47, 3, 9]), Some(Kind::JoinAsk));
        assert_eq!(
            (kind_of(b"AG"), round_of(b"AG"), taken_of(b"AG")),
            (None, None, None)
        );
    }
}

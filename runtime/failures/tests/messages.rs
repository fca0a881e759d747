//! Messages are read as they were written, and anything else is refused without a panic.

use muoswyld_failures::{
    new_file, Echo, Failures, Heard, Heartbeat, Input, Message, Name, NameSet, Policy, Settings,
    Time,
};

/// SplitMix64.
struct Draw(u64);

impl Draw {
    fn word(&mut self) -> u64 {
        self.0 = self.0.wrapping_add(0x9e37_79b9_7f4a_7c15);
        let mut word = self.0;
        word = (word ^ (word >> 30)).wrapping_mul(0xbf58_476d_1ce4_e5b9);
        word = (word ^ (word >> 27)).wrapping_mul(0x94d0_49bb_1331_11eb);
        word ^ (word >> 31)
    }

    fn heard(&mut self) -> Heard {
        Heard {
            name: Name::of_byte(self.word() as u8),
            process: self.word(),
            sequence: self.word(),
        }
    }

    fn set(&mut self) -> NameSet {
        let count = self.word() % 20;
        (0..count)
            .map(|_| Name::of_byte(self.word() as u8))
            .collect()
    }

    fn message(&mut self) -> Message {
        let id = [self.word() as u8; 16];
        if self.word().is_multiple_of(5) {
            let to = Name::of_byte(self.word() as u8);
            return Message::Closed { id, to };
        }
        if self.word().is_multiple_of(5) {
            return Message::Elsewhere {
                id,
                to: Name::of_byte(self.word() as u8),
                place: self.word() as u8 % 16,
                generation: self.word() as u32,
            };
        }
        if self.word().is_multiple_of(2) {
            return Message::Echo(Echo {
                id,
                voter: Name::of_byte(self.word() as u8),
                counter: self.word(),
                heard: self.heard(),
            });
        }
        let (heard, counters) = (self.word() % 65, self.word() % 17);
        Message::Heartbeat(Box::new(Heartbeat {
            id,
            from: self.heard(),
            asks: self.word().is_multiple_of(2),
            counter: self.word().is_multiple_of(2).then(|| self.word()),
            frozen_for: self.word().is_multiple_of(2).then(|| self.word()),
            members: self.set(),
            suspects: self.set(),
            wants: self.set(),
            refuses: self.set(),
            ripe: self.set(),
            stopped: self.set(),
            words: self.set(),
            heard: (0..heard).map(|_| self.heard()).collect(),
            counters: (0..counters)
                .map(|place| (place as u8 % 16, self.word()))
                .collect(),
        }))
    }
}

#[test]
fn a_message_is_read_as_it_was_written() {
    let mut draw = Draw(1);
    for _ in 0..2000 {
        let message = draw.message();
        let bytes = message.to_bytes();
        assert_eq!(Message::read(&bytes), Some(message));
        let cut = draw.word() as usize % bytes.len();
        assert_eq!(Message::read(&bytes[..cut]), None);
        let mut longer = bytes;
        longer.push(0);
        assert_eq!(Message::read(&longer), None);
    }
}

/// An echo's bytes, written by hand.
#[test]
fn the_bytes_of_an_echo() {
    let mut bytes = vec![0x11];
    bytes.extend([7; 16]);
    bytes.push(0x12);
    bytes.extend([0, 0, 0, 0, 0, 0, 0, 3]);
    bytes.push(0x05);
    bytes.extend([0, 0, 0, 0, 0, 0, 1, 0]);
    bytes.extend([0, 0, 0, 0, 0, 0, 0, 9]);
    let echo = Message::Echo(Echo {
        id: [7; 16],
        voter: Name::of_byte(0x12),
        counter: 3,
        heard: Heard {
            name: Name::of_byte(5),
            process: 256,
            sequence: 9,
        },
    });
    assert_eq!(echo.to_bytes(), bytes);
    assert_eq!(Message::read(&bytes), Some(echo));
}

/// Random bytes, and messages with some bytes changed: what is read has those very bytes, and a core takes all of it.
#[test]
fn no_bytes_make_a_core_panic() {
    let mut draw = Draw(2);
    let settings = Settings::new([7; 16], Name::first(0), 1, 0b111, Policy::Echo);
    let file = new_file([7; 16], 0);
    let mut core = Failures::new(settings, Some(&file), Time(0)).expect("settings");
    let mut read = 0;
    for turn in 0..60_000 {
        let mut bytes = match turn % 2 {
            0 => draw.message().to_bytes(),
            _ => {
                let length = draw.word() % 400;
                let mut bytes: Vec<u8> = (0..length).map(|_| draw.word() as u8).collect();
                if let Some(first) = bytes.first_mut() {
                    *first = 0x10 | *first & 1;
                }
                bytes
            }
        };
        for _ in 0..draw.word() % 4 {
            let at = draw.word() as usize % bytes.len().max(1);
            if let Some(byte) = bytes.get_mut(at) {
                *byte = draw.word() as u8;
            }
        }
        if bytes.len() > 17 && draw.word().is_multiple_of(2) {
            bytes[1..17].copy_from_slice(&[7; 16]);
        }
        if let Some(message) = Message::read(&bytes) {
            assert_eq!(message.to_bytes(), bytes);
            read += 1;
        }
        core.handle(Time(turn), Input::Datagram(&bytes));
        core.take();
    }
    assert!(read > 10_000);
}

/// The longest heartbeat of a process fits in the smallest datagram of a member, whatever it has heard.
#[test]
fn the_longest_heartbeat_fits_in_a_datagram() {
    let id = [1; 16];
    let settings = Settings::new(id, Name::first(0), 1, 0x7fff, Policy::Echo);
    let file = new_file(id, 0);
    let mut core = Failures::new(settings, Some(&file), Time(0)).expect("settings");
    for byte in 0..=255u8 {
        let name = Name::of_byte(byte);
        let mut heartbeat = heartbeat_of(id, name);
        heartbeat.counter = Some(0);
        let message = Message::Heartbeat(Box::new(heartbeat)).to_bytes();
        core.handle(Time(1), Input::Datagram(&message));
    }
    core.handle(Time(10_000_000), Input::Time);
    let sent = core.take().into_iter().filter_map(|output| match output {
        muoswyld_failures::Output::Send { payload, .. } => Some(payload),
        _ => None,
    });
    let longest = sent.max_by_key(Vec::len).expect("a heartbeat");
    let Some(Message::Heartbeat(heartbeat)) = Message::read(&longest) else {
        panic!("it is no heartbeat");
    };
    assert_eq!(heartbeat.heard.len(), 15);
    assert!(longest.len() <= 700, "{}", longest.len());
}

fn heartbeat_of(id: [u8; 16], name: Name) -> Heartbeat {
    let none = NameSet::default();
    Heartbeat {
        id,
        from: Heard {
            name,
            process: 1,
            sequence: 1,
        },
        asks: false,
        counter: None,
        frozen_for: None,
        members: none,
        suspects: none,
        wants: none,
        refuses: none,
        ripe: none,
        stopped: none,
        words: none,
        heard: Vec::new(),
        counters: Vec::new(),
    }
}

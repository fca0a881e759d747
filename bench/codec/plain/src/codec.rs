//! Encoding and decoding of every kind.

const MOST: u32 = 2_000_000_000;

#[derive(Clone, Copy, Debug)]
pub struct Stamp {
    pub round: u32,
    pub by: u8,
}

#[derive(Clone, Copy, Debug)]
pub struct Report {
    pub stored: u32,
    pub taken: u32,
}

#[derive(Clone, Copy, Debug)]
pub struct Set {
    pub mask: u16,
    pub lives: u64,
}

#[derive(Clone, Copy, Debug)]
pub struct Row {
    pub life: u8,
    pub joined: u32,
    pub left: u32,
    pub last: u32,
}

#[derive(Clone, Debug)]
pub enum Entry {
    Data { from: u8, req: u32, body: Vec<u8> },
    Join(u8),
    Leave(u8),
    View { stamp: Stamp, members: Set, resilience: u8 },
}

#[derive(Clone, Debug)]
pub enum Fields {
    Request { report: Report, req: u32, body: Vec<u8> },
    Spread { report: Report, req: u32, body: Vec<u8> },
    Bcast { base: u32, acc: u32, number: u32, entry: Entry },
    Order { base: u32, acc: u32, number: u32, from: u8, req: u32 },
    Accept { base: u32, acc: u32, top: u32, poll: bool },
    Ack(Report),
    Nack(Report),
    Hold { base: u32, top: u32, req: u32 },
    JoinAsk,
    Welcome { base: u32, join: u32, view: Stamp, view_number: u32, resilience: u8, rows: [Row; 16] },
    LeaveAsk(Report),
    Gone(u32),
    Invite,
    Vote { view: Stamp, top: u32, taken: u32, members: Set },
    Fetch(u32),
    Piece { base: u32, number: u32, entry: Entry },
    Result { base: u32, number: u32, members: Set, resilience: u8 },
    HandOver,
}

#[derive(Clone, Debug)]
pub struct Packet {
    pub sender: u8,
    pub stamp: Stamp,
    pub fields: Fields,
}

#[derive(Clone, Copy, PartialEq, Eq, Debug)]
pub enum Refusal {
    BadField { at: u32 },
    BadKind(u8),
    BadLength { said: u32, found: u32 },
    BadMark,
    BadVersion(u8),
    Short,
}

impl Packet {
    pub fn kind(&self) -> u8 {
        match self.fields {
            Fields::Request { .. } => 1,
            Fields::Spread { .. } => 2,
            Fields::Bcast { .. } => 3,
            Fields::Order { .. } => 4,
            Fields::Accept { .. } => 5,
            Fields::Ack(_) => 6,
            Fields::Nack(_) => 7,
            Fields::Hold { .. } => 8,
            Fields::JoinAsk => 9,
            Fields::Welcome { .. } => 10,
            Fields::LeaveAsk(_) => 11,
            Fields::Gone(_) => 12,
            Fields::Invite => 13,
            Fields::Vote { .. } => 14,
            Fields::Fetch(_) => 15,
            Fields::Piece { .. } => 16,
            Fields::Result { .. } => 17,
            Fields::HandOver => 18,
        }
    }
}

fn put(into: &mut Vec<u8>, numbers: &[u32]) {
    for number in numbers {
        into.extend_from_slice(&number.to_be_bytes());
    }
}

fn put_stamp(into: &mut Vec<u8>, stamp: Stamp) {
    put(into, &[stamp.round]);
    into.push(stamp.by);
}

fn put_set(into: &mut Vec<u8>, set: Set) {
    into.extend_from_slice(&set.mask.to_be_bytes());
    into.extend_from_slice(&set.lives.to_be_bytes());
}

fn put_entry(into: &mut Vec<u8>, entry: &Entry) {
    match entry {
        Entry::Data { from, req, body } => {
            into.extend_from_slice(&[1, *from]);
            put(into, &[*req]);
            into.extend_from_slice(body);
        }
        Entry::Join(name) => into.extend_from_slice(&[2, *name]),
        Entry::Leave(name) => into.extend_from_slice(&[3, *name]),
        Entry::View { stamp, members, resilience } => {
            into.push(4);
            put_stamp(into, *stamp);
            put_set(into, *members);
            into.push(*resilience);
        }
    }
}

pub fn encode(packet: &Packet, into: &mut Vec<u8>) {
    into.clear();
    into.extend_from_slice(&[b'A', b'G', 3, packet.kind(), packet.sender]);
    put_stamp(into, packet.stamp);
    into.extend_from_slice(&[0, 0]);
    match &packet.fields {
        Fields::Request { report, req, body } | Fields::Spread { report, req, body } => {
            put(into, &[report.stored, report.taken, *req]);
            into.extend_from_slice(body);
        }
        Fields::Bcast { base, acc, number, entry } => {
            put(into, &[*base, *acc, *number]);
            put_entry(into, entry);
        }
        Fields::Order { base, acc, number, from, req } => {
            put(into, &[*base, *acc, *number]);
            into.push(*from);
            put(into, &[*req]);
        }
        Fields::Accept { base, acc, top, poll } => {
            put(into, &[*base, *acc, *top]);
            into.push(u8::from(*poll));
        }
        Fields::Ack(report) | Fields::Nack(report) | Fields::LeaveAsk(report) => {
            put(into, &[report.stored, report.taken]);
        }
        Fields::Hold { base, top, req } => put(into, &[*base, *top, *req]),
        Fields::JoinAsk | Fields::Invite | Fields::HandOver => {}
        Fields::Welcome { base, join, view, view_number, resilience, rows } => {
            put(into, &[*base, *join]);
            put_stamp(into, *view);
            put(into, &[*view_number]);
            into.push(*resilience);
            for row in rows {
                into.push(row.life);
                put(into, &[row.joined, row.left, row.last]);
            }
        }
        Fields::Gone(number) | Fields::Fetch(number) => put(into, &[*number]),
        Fields::Vote { view, top, taken, members } => {
            put_stamp(into, *view);
            put(into, &[*top, *taken]);
            put_set(into, *members);
        }
        Fields::Piece { base, number, entry } => {
            put(into, &[*base, *number]);
            put_entry(into, entry);
        }
        Fields::Result { base, number, members, resilience } => {
            put(into, &[*base, *number]);
            put_set(into, *members);
            into.push(*resilience);
        }
    }
    let total = (into.len() as u16).to_be_bytes();
    into[10..12].copy_from_slice(&total);
}

fn bad<T>(at: usize) -> Result<T, Refusal> {
    Err(Refusal::BadField { at: at as u32 })
}

fn number(bytes: &[u8], at: usize) -> Result<u32, Refusal> {
    let number = u32::from_be_bytes([bytes[at], bytes[at + 1], bytes[at + 2], bytes[at + 3]]);
    if number <= MOST { Ok(number) } else { bad(at) }
}

fn report(bytes: &[u8], at: usize) -> Result<Report, Refusal> {
    Ok(Report { stored: number(bytes, at)?, taken: number(bytes, at + 4)? })
}

fn stamp(bytes: &[u8], at: usize) -> Result<Stamp, Refusal> {
    Ok(Stamp { round: number(bytes, at)?, by: bytes[at + 4] })
}

fn set(bytes: &[u8], at: usize) -> Result<Set, Refusal> {
    let mask = u16::from_be_bytes([bytes[at], bytes[at + 1]]);
    let lives = bytes[at + 2..at + 10].iter().fold(0, |lives, byte| lives << 8 | u64::from(*byte));
    for place in 0..16 {
        if mask >> place & 1 == 0 && lives >> (4 * place) & 15 != 0 {
            return bad(at + 2);
        }
    }
    Ok(Set { mask, lives })
}

fn resilience(bytes: &[u8], at: usize) -> Result<u8, Refusal> {
    if bytes[at] <= 15 { Ok(bytes[at]) } else { bad(at) }
}

fn row(bytes: &[u8], at: usize) -> Result<Row, Refusal> {
    let joined = number(bytes, at + 1)?;
    let life = bytes[at];
    if life > 16 || (life == 0) != (joined == 0) {
        return bad(at);
    }
    Ok(Row { life, joined, left: number(bytes, at + 5)?, last: number(bytes, at + 9)? })
}

fn entry(bytes: &[u8], at: usize) -> Result<Entry, Refusal> {
    let total = bytes.len() - at;
    let fits = match bytes[at] {
        1 => (6..=1030).contains(&total),
        2 | 3 => total == 2,
        4 => total == 17,
        _ => return bad(at),
    };
    if !fits {
        return bad(10);
    }
    Ok(match bytes[at] {
        1 => Entry::Data { from: bytes[at + 1], req: number(bytes, at + 2)?, body: bytes[at + 6..].to_vec() },
        2 => Entry::Join(bytes[at + 1]),
        3 => Entry::Leave(bytes[at + 1]),
        _ => Entry::View {
            stamp: stamp(bytes, at + 1)?,
            members: set(bytes, at + 6)?,
            resilience: resilience(bytes, at + 16)?,
        },
    })
}

fn total_fits(kind: u8, total: usize) -> bool {
    match kind {
        1 | 2 => (24..=1048).contains(&total),
        3 => 25 <= total,
        16 => 21 <= total,
        8 => total == 24,
        5 => total == 25,
        4 => total == 29,
        6 | 7 | 11 => total == 20,
        10 => total == 238,
        12 | 15 => total == 16,
        14 => total == 35,
        17 => total == 31,
        _ => total == 12,
    }
}

pub fn decode(bytes: &[u8]) -> Result<Packet, Refusal> {
    if bytes.len() < 12 {
        return Err(Refusal::Short);
    }
    if &bytes[..2] != b"AG" {
        return Err(Refusal::BadMark);
    }
    if bytes[2] != 3 {
        return Err(Refusal::BadVersion(bytes[2]));
    }
    let kind = bytes[3];
    if !(1..=18).contains(&kind) {
        return Err(Refusal::BadKind(kind));
    }
    let said = u16::from_be_bytes([bytes[10], bytes[11]]);
    if usize::from(said) != bytes.len() {
        return Err(Refusal::BadLength { said: said.into(), found: bytes.len() as u32 });
    }
    let round = stamp(bytes, 5)?;
    if !total_fits(kind, bytes.len()) {
        return bad(10);
    }
    Ok(Packet { sender: bytes[4], stamp: round, fields: fields(kind, bytes)? })
}

fn fields(kind: u8, bytes: &[u8]) -> Result<Fields, Refusal> {
    let at = |at| number(bytes, at);
    Ok(match kind {
        1 => Fields::Request { report: report(bytes, 12)?, req: at(20)?, body: bytes[24..].to_vec() },
        2 => Fields::Spread { report: report(bytes, 12)?, req: at(20)?, body: bytes[24..].to_vec() },
        3 => Fields::Bcast { base: at(12)?, acc: at(16)?, number: at(20)?, entry: entry(bytes, 24)? },
        4 => Fields::Order { base: at(12)?, acc: at(16)?, number: at(20)?, from: bytes[24], req: at(25)? },
        5 => Fields::Accept {
            base: at(12)?,
            acc: at(16)?,
            top: at(20)?,
            poll: match bytes[24] {
                0 => false,
                1 => true,
                _ => return bad(24),
            },
        },
        6 => Fields::Ack(report(bytes, 12)?),
        7 => Fields::Nack(report(bytes, 12)?),
        8 => Fields::Hold { base: at(12)?, top: at(16)?, req: at(20)? },
        9 => Fields::JoinAsk,
        10 => {
            let (base, join, view) = (at(12)?, at(16)?, stamp(bytes, 20)?);
            let (view_number, resilience) = (at(25)?, resilience(bytes, 29)?);
            let mut rows = [Row { life: 0, joined: 0, left: 0, last: 0 }; 16];
            for (place, kept) in rows.iter_mut().enumerate() {
                *kept = row(bytes, 30 + 13 * place)?;
            }
            Fields::Welcome { base, join, view, view_number, resilience, rows }
        }
        11 => Fields::LeaveAsk(report(bytes, 12)?),
        12 => Fields::Gone(at(12)?),
        13 => Fields::Invite,
        14 => Fields::Vote { view: stamp(bytes, 12)?, top: at(17)?, taken: at(21)?, members: set(bytes, 25)? },
        15 => Fields::Fetch(at(12)?),
        16 => Fields::Piece { base: at(12)?, number: at(16)?, entry: entry(bytes, 20)? },
        17 => Fields::Result {
            base: at(12)?,
            number: at(16)?,
            members: set(bytes, 20)?,
            resilience: resilience(bytes, 30)?,
        },
        _ => Fields::HandOver,
    })
}

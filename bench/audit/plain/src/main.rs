//! A plain auditor of the same work, to compare times with: docs/AUDIT.md has the grammar and the verdicts.

use std::collections::BTreeMap;
use std::io::{Read, Write};

#[derive(Clone, Copy, PartialEq, Eq, PartialOrd, Ord)]
struct Name(u8);

impl std::fmt::Display for Name {
    fn fmt(&self, f: &mut std::fmt::Formatter<'_>) -> std::fmt::Result {
        let (place, life) = (self.0 % 16, self.0 / 16 + 1);
        if life == 1 { write!(f, "{place}") } else { write!(f, "{place}/{life}") }
    }
}

enum Entry {
    Data(Name, u32),
    Join(Name),
    Leave(Name),
    View(u32, Name, [u8; 16], u8),
}

#[derive(Clone, Copy)]
struct Line<'a> {
    name: Name,
    number: u32,
    text: &'a [u8],
}

#[derive(Default)]
struct Text<'a> {
    events: u32,
    sends: Vec<Line<'a>>,
    answers: Vec<(Name, u32, u32)>,
    takes: Vec<Line<'a>>,
    group: Vec<&'a [u8]>,
    logs: Vec<Line<'a>>,
    void_from: Option<u32>,
}

fn cut(text: &[u8], at: u8) -> Option<(&[u8], &[u8])> {
    let index = text.iter().position(|byte| *byte == at)?;
    Some((&text[..index], &text[index + 1..]))
}

fn mark(text: &[u8], mark: u8) -> Option<(&[u8], &[u8])> {
    let index = text.windows(3).position(|bytes| bytes == [b' ', mark, b' '])?;
    Some((&text[..index], &text[index + 3..]))
}

fn number_up_to(word: &[u8], most: u32) -> Option<u32> {
    if word.is_empty() || word.len() > 10 || (word[0] == b'0' && word.len() > 1) || !word.iter().all(u8::is_ascii_digit) {
        return None;
    }
    let value = word.iter().fold(0u64, |value, digit| value * 10 + u64::from(digit - b'0'));
    u32::try_from(value).ok().filter(|value| *value <= most)
}

fn number(word: &[u8]) -> Option<u32> {
    number_up_to(word, 2_000_000_000)
}

fn name(word: &[u8]) -> Option<Name> {
    let (place, life) = match cut(word, b'/') {
        Some((place, life)) => (place, number_up_to(life, 16).filter(|life| *life > 1)?),
        None => (word, 1),
    };
    Some(Name(number_up_to(place, 15)? as u8 + 16 * (life as u8 - 1)))
}

fn is_body(word: &[u8]) -> bool {
    word == b"-"
        || (!word.is_empty() && word.len() % 2 == 0 && word.len() <= 2048
            && word.iter().all(|byte| byte.is_ascii_digit() || (b'a'..=b'f').contains(byte)))
}

fn names(word: &[u8]) -> Option<[u8; 16]> {
    let mut set = [0; 16];
    if word == b"-" {
        return Some(set);
    }
    let mut least = 0;
    for part in word.split(|byte| *byte == b',') {
        let name = name(part)?;
        if name.0 % 16 < least {
            return None;
        }
        least = name.0 % 16 + 1;
        set[usize::from(name.0 % 16)] = name.0 / 16 + 1;
    }
    Some(set)
}

fn data(rest: &[u8]) -> Option<(Name, u32, &[u8])> {
    let (from, rest) = cut(rest, b' ')?;
    let (req, body) = cut(rest, b' ')?;
    Some((name(from)?, number(req)?, body))
}

fn data_in(text: &[u8]) -> Option<(Name, u32, &[u8])> {
    data(text.strip_prefix(b"data ")?)
}

fn entry(text: &[u8]) -> Option<Entry> {
    let (word, rest) = cut(text, b' ')?;
    match word {
        b"data" => data(rest).filter(|(_, _, body)| is_body(body)).map(|(from, req, _)| Entry::Data(from, req)),
        b"join" => name(rest).map(Entry::Join),
        b"leave" => name(rest).map(Entry::Leave),
        b"view" => {
            let (stamp, rest) = cut(rest, b' ')?;
            let (round, by) = cut(stamp, b'.')?;
            let (set, resilience) = match cut(rest, b' ') {
                Some((set, last)) => (set, number_up_to(last.strip_prefix(b"r")?, 15).filter(|r| *r > 0)? as u8),
                None => (rest, 0),
            };
            Some(Entry::View(number(round)?, name(by)?, names(set)?, resilience))
        }
        _ => None,
    }
}

fn count<'a>(text: &mut Text<'a>, lives: &mut [Name; 16], act: &'a [u8], outcome: &'a [u8]) -> Option<()> {
    let (word, rest) = cut(act, b' ')?;
    let (said, told) = cut(outcome, b' ')?;
    match (word, said) {
        (b"send", b"queued") => {
            let (place, body) = cut(rest, b' ')?;
            let (place, number) = (number_up_to(place, 15)?, number(told)?);
            if is_body(body) {
                text.sends.push(Line { name: lives[place as usize], number, text: body });
            }
        }
        (b"done", b"sent") => {
            let (place, req) = cut(rest, b' ')?;
            let (again, last) = cut(told, b' ')?;
            let (place, asked, number) = (number_up_to(place, 15)?, number(req)?, number(last)?);
            if again == req {
                text.answers.push((lives[place as usize], asked, number));
            }
        }
        (b"take", b"took") => {
            let (first, taken) = cut(told, b' ')?;
            let (place, number) = (number_up_to(rest, 15)?, number(first)?);
            entry(taken)?;
            text.takes.push(Line { name: lives[place as usize], number, text: taken });
        }
        (b"return", b"returned") => {
            let place = number_up_to(rest, 15)?;
            let life = number_up_to(told, 16).filter(|life| *life > 0)?;
            lives[place as usize] = Name(place as u8 + 16 * (life as u8 - 1));
        }
        _ => {}
    }
    Some(())
}

fn read(bytes: &[u8]) -> Result<Text<'_>, usize> {
    let mut text = Text::default();
    let mut lives = std::array::from_fn(|place| Name(place as u8));
    let (mut logs_began, mut ended, mut at, mut rest) = (false, false, 1, bytes);
    if bytes.first() == Some(&b'{') {
        (_, rest) = cut(bytes, b'\n').ok_or(1usize)?;
        at = 2;
    }
    while let Some((line, behind)) = cut(rest, b'\n') {
        let taken = (|| {
            if ended {
                return None;
            }
            let may_log = !text.group.is_empty();
            if line == b"lawful" {
                ended = may_log;
                return may_log.then_some(());
            }
            let (word, rest) = cut(line, b' ')?;
            match word {
                b"group" => {
                    let (k, found) = cut(rest, b' ')?;
                    entry(found)?;
                    text.group.push((!logs_began && number(k)? as usize == text.group.len() + 1).then_some(found)?);
                }
                b"log" if may_log => {
                    let (who, found) = cut(rest, b' ')?;
                    let name = name(who)?;
                    logs_began = true;
                    if found != b"empty" {
                        let (k, found) = cut(found, b' ')?;
                        entry(found)?;
                        text.logs.push(Line { name, number: number(k)?, text: found });
                    }
                }
                b"void" if may_log => {
                    text.void_from = Some(number(rest.strip_prefix(b"from ")?)?);
                    ended = true;
                }
                _ => {
                    if may_log || number(word)? != text.events + 1 {
                        return None;
                    }
                    let (act, behind) = mark(rest, b':')?;
                    text.events += 1;
                    count(&mut text, &mut lives, act, mark(behind, b'|').map_or(behind, |(outcome, _)| outcome));
                }
            }
            Some(())
        })();
        taken.ok_or(at)?;
        rest = behind;
        at += 1;
    }
    if rest.is_empty() && ended { Ok(text) } else { Err(at) }
}

fn at<'a>(group: &[&'a [u8]], number: u32) -> Option<&'a [u8]> {
    group.get((number as usize).checked_sub(1)?).copied()
}

#[derive(Default)]
struct Seat {
    life: u8,
    member: bool,
    last: u32,
}

fn misfit(group: &[&[u8]]) -> Option<usize> {
    let mut seats: [Seat; 16] = Default::default();
    let (mut view, mut least) = ((0, Name(0)), 0);
    let rank = |name: Name| (name.0 % 16, name.0 / 16);
    for (index, text) in group.iter().enumerate() {
        let seat = |name: Name| usize::from(name.0 % 16);
        let is_member = |seats: &[Seat; 16], name: Name| seats[seat(name)].member && seats[seat(name)].life == name.0 / 16 + 1;
        let fits = match entry(text)? {
            Entry::View(round, by, set, resilience) if index == 0 => {
                for (seat, life) in seats.iter_mut().zip(set) {
                    *seat = Seat { life, member: life > 0, last: 0 };
                }
                view = (round, by);
                let lowest = set.iter().position(|life| *life > 0);
                round == 1 && resilience == 0 && set.iter().all(|life| *life <= 1) && lowest == Some(usize::from(by.0))
            }
            _ if index == 0 => false,
            Entry::Data(from, req) => {
                let fits = is_member(&seats, from) && req == seats[seat(from)].last + 1;
                seats[seat(from)].last = req;
                fits
            }
            Entry::Join(name) => {
                let old = &seats[seat(name)];
                let fits = !old.member && old.life < name.0 / 16 + 1;
                seats[seat(name)] = Seat { life: name.0 / 16 + 1, member: true, last: 0 };
                fits
            }
            Entry::Leave(name) => {
                let fits = is_member(&seats, name);
                seats[seat(name)].member = false;
                fits
            }
            Entry::View(round, by, set, resilience) => {
                let within = set.iter().enumerate().all(|(place, life)| *life == 0 || is_member(&seats, Name(place as u8 + 16 * (life - 1))));
                let fits = (view.0, rank(view.1)) < (round, rank(by)) && within && set[seat(by)] == by.0 / 16 + 1 && least <= resilience;
                (view, least) = ((round, by), resilience);
                for (seat, life) in seats.iter_mut().zip(set) {
                    seat.member &= life == seat.life;
                }
                fits
            }
        };
        if !fits {
            return Some(index + 1);
        }
    }
    None
}

fn verdict(text: &Text) -> String {
    let (mut last, mut first, mut sent) = ([None; 256], BTreeMap::new(), BTreeMap::new());
    for (index, line) in text.logs.iter().enumerate() {
        if last[usize::from(line.name.0)].is_some_and(|last: u32| last + 1 != line.number) {
            return format!("gap {} {}", line.name, line.number);
        }
        let known = &text.logs[*first.entry(line.number).or_insert(index)];
        if known.text != line.text {
            return format!("differs {} {} {}", known.name, line.name, line.number);
        }
        if let Some((from, req, _)) = data_in(line.text) {
            if *sent.entry((from, req)).or_insert(line.number) != line.number {
                return format!("twice {from} {req}");
            }
        }
        last[usize::from(line.name.0)] = Some(line.number);
    }
    if let Some(line) = text.logs.iter().find(|line| at(&text.group, line.number) != Some(line.text)) {
        return format!("astray {} {}", line.name, line.number);
    }
    let mut stands = BTreeMap::new();
    for (index, found) in text.group.iter().enumerate() {
        if let Some((from, req, _)) = data_in(found) {
            stands.entry((from, req)).and_modify(|number| *number = None).or_insert(Some(index as u32 + 1));
        }
    }
    if let Some((name, req, _)) = text.answers.iter().find(|(name, req, number)| stands.get(&(*name, *req)) != Some(&Some(*number))) {
        return format!("lost {name} {req}");
    }
    let mut seen = [false; 256];
    for line in &text.logs {
        let may = match entry(line.text) {
            Some(Entry::Join(name)) => name == line.name,
            Some(Entry::View(_, _, set, _)) => line.number == 1 && set[usize::from(line.name.0 % 16)] == line.name.0 / 16 + 1,
            _ => false,
        };
        if !std::mem::replace(&mut seen[usize::from(line.name.0)], true) && !may {
            return format!("early {} {}", line.name, line.number);
        }
    }
    if let Some(number) = misfit(&text.group) {
        return format!("misfit {number}");
    }
    if text.events == 0 {
        return "lists-agree".to_string();
    }
    let (mut last, mut asked) = ([0; 256], BTreeMap::new());
    for send in &text.sends {
        if send.number != last[usize::from(send.name.0)] + 1 {
            return format!("skipped {} {}", send.name, send.number);
        }
        last[usize::from(send.name.0)] = send.number;
        asked.insert((send.name, send.number), send.text);
    }
    for found in &text.group {
        if let Some((from, req, body)) = data_in(found) {
            if asked.get(&(from, req)) != Some(&body) {
                return format!("unsent {from} {req}");
            }
        }
    }
    let mut logs: Vec<Vec<Line>> = vec![Vec::new(); 256];
    for line in &text.logs {
        logs[usize::from(line.name.0)].push(*line);
    }
    let mut done = [0; 256];
    for take in &text.takes {
        let (log, k) = (&logs[usize::from(take.name.0)], &mut done[usize::from(take.name.0)]);
        if !log.get(*k).is_some_and(|line| (line.number, line.text) == (take.number, take.text)) {
            return format!("unlogged {} {}", take.name, take.number);
        }
        *k += 1;
    }
    for line in &text.logs {
        let left = &mut done[usize::from(line.name.0)];
        if *left == 0 {
            return format!("untaken {} {}", line.name, line.number);
        }
        *left -= 1;
    }
    "agrees".to_string()
}

fn main() {
    let mut bytes = Vec::new();
    if std::io::stdin().read_to_end(&mut bytes).is_err() {
        std::process::exit(4);
    }
    let status = match read(&bytes) {
        Ok(text) => {
            let found = verdict(&text);
            let mark = text.void_from.map_or(String::new(), |number| format!(" void from {number}"));
            let _ = std::io::stdout().write_all(format!("{found}{mark}\n").as_bytes());
            if found == "agrees" || found == "lists-agree" { 0 } else { 9 }
        }
        Err(line) => {
            eprintln!("bad text at {line}");
            8
        }
    };
    std::process::exit(status);
}

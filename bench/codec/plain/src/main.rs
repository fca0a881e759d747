//! The packet format in plain Rust, with std alone, as a measure for the proved codec.

mod codec;

use codec::{decode, encode, Packet};
use std::hint::black_box;
use std::time::Instant;

fn ack() -> Vec<u8> {
    b"AG\x03\x06\x01\x00\x00\x00\x02\x00\x00\x14\x00\x00\x00\x05\x00\x00\x00\x04".to_vec()
}

fn request() -> Vec<u8> {
    let mut bytes = b"AG\x03\x01\x01\x00\x00\x00\x02\x00\x04\x18\x00\x00\x00\x05\x00\x00\x00\x04\x00\x00\x00\x03".to_vec();
    bytes.resize(1048, 7);
    bytes
}

fn decode_many(bytes: &mut [u8], count: u32) -> u64 {
    let mut sum = 0u64;
    for i in 0..count {
        if let Some(last) = bytes.last_mut() {
            *last = i as u8;
        }
        if let Ok(packet) = &decode(black_box(bytes)) {
            sum += u64::from(packet.kind());
        }
    }
    sum
}

fn encode_many(first: &Packet, second: &Packet, count: u32) -> u64 {
    let mut written = Vec::with_capacity(1152);
    let mut sum = 0u64;
    for i in 0..count {
        encode(black_box(if i % 2 == 0 { first } else { second }), &mut written);
        if let Some(last) = written.last() {
            sum += u64::from(*last);
        }
    }
    sum
}

fn main() {
    let count: u32 = std::env::args()
        .nth(1)
        .and_then(|word| word.parse().ok())
        .unwrap_or(1_000_000);
    for (what, mut bytes) in [("20-byte Ack", ack()), ("1,024-byte Request", request())] {
        let start = Instant::now();
        let read = decode_many(&mut bytes, count);
        let decoding = start.elapsed().as_nanos() / u128::from(count);
        println!("plain    decode {what}: {decoding} ns ({read})");
        let packet = decode(&bytes).expect("a packet");
        let start = Instant::now();
        let written = encode_many(&packet, &packet, count);
        let encoding = start.elapsed().as_nanos() / u128::from(count);
        println!("plain    encode {what}: {encoding} ns ({written})");
    }
}

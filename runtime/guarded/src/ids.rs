//! The ids of what says who has stopped, of each list of a group.

use ring::digest::{Context, SHA256};

/// The id of the failures of the list that follows one: it is made from that one's id and the next group's id. So heartbeats, echoes,
/// refusals and voters' files are of one list.
pub fn next_id(id: [u8; 16], group: u64) -> [u8; 16] {
    let mut context = Context::new(&SHA256);
    context.update(b"muoswyld failures next");
    context.update(&id);
    context.update(&group.to_be_bytes());
    let digest = context.finish();
    let mut next = [0; 16];
    next.iter_mut()
        .zip(digest.as_ref())
        .for_each(|(to, from)| *to = *from);
    next
}

/// The word of a process in the list that follows one, from its word there and the next group's id.
pub(crate) fn next_process(process: u64, group: u64) -> u64 {
    let mut id = [0; 16];
    id[..8].copy_from_slice(&process.to_be_bytes());
    let next = next_id(id, group);
    next.iter()
        .take(8)
        .fold(0, |word, byte| word << 8 | u64::from(*byte))
}

#[cfg(test)]
mod tests {
    use super::*;

    #[test]
    fn each_list_has_its_own_id() {
        let ids = [
            next_id([1; 16], 2),
            next_id([2; 16], 2),
            next_id([1; 16], 3),
            next_id(next_id([1; 16], 2), 2),
            [1; 16],
        ];
        for (k, id) in ids.iter().enumerate() {
            assert!(!ids[..k].contains(id));
        }
        assert_ne!(next_process(1, 2), next_process(1, 3));
        assert_ne!(next_process(1, 2), next_process(2, 2));
    }
}

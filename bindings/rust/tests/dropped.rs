use muoswyld::Node;
use std::fs;

/// How many pages of address space this process has.
fn pages() -> i64 {
    let statm = fs::read_to_string("/proc/self/statm").unwrap();
    statm.split(' ').next().unwrap().parse().unwrap()
}

fn open() -> Node {
    let mut node = Node::open("--name 0 --founders 0,1 --window 1008").unwrap();
    assert_eq!(node.step("send 61").unwrap().said, "queued 1");
    node
}

/// Of nodes that were dropped nothing is kept: twenty times as many take no more room than those that weren't. (This stands alone, so that
/// no other test of the process takes room beside it.)
#[test]
fn a_dropped_node_gives_its_memory_back() {
    const COUNT: usize = 20;
    let before = pages();
    let kept: Vec<Node> = (0..COUNT).map(|_| open()).collect();
    let room = pages() - before;
    assert!(room > 0, "{COUNT} nodes take {room} pages");
    drop(kept);
    let before = pages();
    for _ in 0..20 * COUNT {
        drop(open());
    }
    let grown = pages() - before;
    assert!(
        grown <= room,
        "dropped ones take {grown} pages, and {COUNT} that weren't {room}"
    );
}

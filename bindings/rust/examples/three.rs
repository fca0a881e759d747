//! Three members over UDP on this machine, each a thread with its own node and socket. The first one, who numbers what is sent, crashes;
//! the others reset the group, and go on. Each prints what it takes. It ends with 0 once both have taken what was sent last.
use muoswyld::{Node, Refusal};
use std::net::{SocketAddr, UdpSocket};
use std::sync::mpsc::{channel, Receiver, Sender};
use std::thread;
use std::time::{Duration, Instant};

/// What a member is told from outside.
enum Told {
    Send(&'static str),
    Stopped(u8),
    Crash,
}

/// A node with its socket, and the addresses of all places.
struct Member {
    place: u8,
    node: Node,
    socket: UdpSocket,
    peers: Vec<SocketAddr>,
    took: Sender<(u8, String)>,
}

impl Member {
    /// Gives the node a line, and sends what letters it has: a datagram is the line by which the letter is heard.
    fn tell(&mut self, line: &str) -> Result<String, Refusal> {
        let answer = self.node.step(line)?;
        for letter in &answer.letters {
            for place in letter
                .names()
                .filter_map(|name| name.split('/').next()?.parse::<usize>().ok())
            {
                // a letter that gets lost is sent again at a tick
                let _ = self
                    .socket
                    .send_to(letter.heard().as_bytes(), self.peers[place]);
            }
        }
        Ok(answer.said)
    }

    fn take(&mut self) -> Result<(), Refusal> {
        while let Some(entry) = self.tell("take")?.strip_prefix("took ") {
            let _ = self.took.send((self.place, entry.to_string()));
        }
        Ok(())
    }

    /// Until it crashes, or nobody tells it anything any more.
    fn run(mut self, told: Receiver<Told>) -> Result<(), Refusal> {
        let mut datagram = [0; 4096];
        let mut due = Instant::now();
        loop {
            match told.try_recv() {
                Ok(Told::Send(text)) => {
                    let digits: String = text.bytes().map(|byte| format!("{byte:02x}")).collect();
                    self.tell(&format!("send {digits}"))?;
                }
                // a ballot for a view of two members at least, without the one that has certainly stopped
                Ok(Told::Stopped(place)) => {
                    self.tell("reset 2")?;
                    self.tell(&format!("giveup {place}"))?;
                }
                Ok(Told::Crash) => return Ok(()),
                Err(std::sync::mpsc::TryRecvError::Disconnected) => return Ok(()),
                Err(std::sync::mpsc::TryRecvError::Empty) => {}
            }
            if let Ok((n, _)) = self.socket.recv_from(&mut datagram) {
                self.tell(&String::from_utf8_lossy(&datagram[..n]))?;
            }
            if Instant::now() >= due {
                due = Instant::now() + Duration::from_millis(10);
                self.tell("tick")?;
            }
            self.take()?;
        }
    }
}

/// Waits until the members have taken an entry that ends so.
fn wait(took: &Receiver<(u8, String)>, mut members: Vec<u8>, end: &str) {
    while !members.is_empty() {
        let (place, entry) = took
            .recv_timeout(Duration::from_secs(20))
            .expect("an entry within 20 seconds");
        println!("member {place} took {entry}");
        if entry.ends_with(end) {
            members.retain(|other| *other != place);
        }
    }
}

fn main() {
    let sockets: Vec<UdpSocket> = (0..3)
        .map(|_| UdpSocket::bind("127.0.0.1:0").expect("a socket"))
        .collect();
    let peers: Vec<SocketAddr> = sockets
        .iter()
        .map(|socket| socket.local_addr().expect("its address"))
        .collect();
    let (take, took) = channel();
    let mut tell = Vec::new();
    let mut threads = Vec::new();
    for (place, socket) in sockets.into_iter().enumerate() {
        let (sender, told) = channel();
        let (peers, took) = (peers.clone(), take.clone());
        socket
            .set_read_timeout(Some(Duration::from_millis(2)))
            .expect("a timeout");
        threads.push(thread::spawn(move || {
            // a node stays on the thread that opens it
            let node = Node::open(&format!("--name {place} --founders 0,1,2 --resilience 1"))?;
            Member {
                place: place as u8,
                node,
                socket,
                peers,
                took,
            }
            .run(told)
        }));
        tell.push(sender);
    }
    tell[1].send(Told::Send("hello")).expect("it runs");
    wait(&took, vec![0, 1, 2], "data 1 1 68656c6c6f");
    tell[0].send(Told::Crash).expect("it runs");
    threads
        .remove(0)
        .join()
        .expect("it ended")
        .expect("there was memory");
    tell[2].send(Told::Send("still here")).expect("it runs");
    tell[1].send(Told::Stopped(0)).expect("it runs");
    wait(&took, vec![1, 2], "data 2 1 7374696c6c2068657265");
    drop(tell);
    for thread in threads {
        thread.join().expect("it ended").expect("there was memory");
    }
}

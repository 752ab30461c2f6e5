//! The clients' side: queries by UDP and by TCP (RFC 7766), and the answers to them. Nothing here waits: the sockets are looked at when there may be something.

use std::io::{self, ErrorKind, Read, Write};
use std::net::{SocketAddr, SocketAddrV4, TcpListener, TcpStream, UdpSocket};
use std::os::fd::{AsFd, BorrowedFd};

/// More connections are closed at once.
const MOST_CONNECTIONS: usize = 64;
/// A connection that nothing comes from for so long is closed, in milliseconds.
const MOST_IDLE: u64 = 10_000;
/// More than the longest UDP message.
const MOST_DATAGRAM: usize = 65536;
const LENGTH_BYTES: usize = 2;

/// Where an answer goes.
#[derive(Clone, Copy, Debug, PartialEq, Eq)]
pub enum Client {
    Udp(SocketAddr),
    /// By the number of its connection.
    Tcp(u64),
}

pub struct Clients {
    udp: UdpSocket,
    tcp: TcpListener,
    connections: Vec<Connection>,
    next: u64,
    buffer: Vec<u8>,
}

struct Connection {
    number: u64,
    stream: TcpStream,
    /// What has come and is no whole query yet.
    input: Vec<u8>,
    /// What the client has not taken yet.
    output: Vec<u8>,
    /// When something last came or went.
    last: u64,
    is_over: bool,
}

impl Clients {
    pub fn open(address: SocketAddrV4) -> io::Result<Clients> {
        let udp = UdpSocket::bind(address)?;
        let tcp = TcpListener::bind(address)?;
        udp.set_nonblocking(true)?;
        tcp.set_nonblocking(true)?;
        Ok(Clients {
            udp,
            tcp,
            connections: Vec::new(),
            next: 0,
            buffer: vec![0; MOST_DATAGRAM],
        })
    }

    /// What there may be something to read from.
    pub fn descriptors(&self) -> Vec<BorrowedFd<'_>> {
        let listening = [self.udp.as_fd(), self.tcp.as_fd()].into_iter();
        let streams = self.connections.iter().map(|one| one.stream.as_fd());
        listening.chain(streams).collect()
    }

    /// What clients have sent, each with where its answer goes.
    pub fn hear(&mut self, now: u64) -> Vec<(Client, Vec<u8>)> {
        let mut heard = Vec::new();
        while let Ok((length, from)) = self.udp.recv_from(&mut self.buffer) {
            heard.push((Client::Udp(from), self.buffer[..length].to_vec()));
        }
        self.accept(now);
        for connection in &mut self.connections {
            connection.flush(now);
            connection.read(now, &mut self.buffer);
            while let Some(query) = connection.next_query() {
                heard.push((Client::Tcp(connection.number), query));
            }
        }
        let idle = |one: &Connection| one.last + MOST_IDLE <= now;
        self.connections.retain(|one| !one.is_over && !idle(one));
        heard
    }

    fn accept(&mut self, now: u64) {
        while let Ok((stream, _)) = self.tcp.accept() {
            if self.connections.len() < MOST_CONNECTIONS && stream.set_nonblocking(true).is_ok() {
                self.connections.push(Connection {
                    number: self.next,
                    stream,
                    input: Vec::new(),
                    output: Vec::new(),
                    last: now,
                    is_over: false,
                });
                self.next += 1;
            }
        }
    }

    /// Sends an answer. A client that is gone, or takes nothing, gets none.
    pub fn reply(&mut self, now: u64, client: Client, answer: &[u8]) -> io::Result<()> {
        match client {
            Client::Udp(to) => self.udp.send_to(answer, to).map(|_| ()),
            Client::Tcp(number) => {
                let mut connections = self.connections.iter_mut();
                if let Some(connection) = connections.find(|one| one.number == number) {
                    let length = (answer.len() as u16).to_be_bytes();
                    connection.output.extend(length);
                    connection.output.extend(answer);
                    connection.flush(now);
                }
                Ok(())
            }
        }
    }
}

impl Connection {
    fn read(&mut self, now: u64, buffer: &mut [u8]) {
        match self.stream.read(buffer) {
            Ok(0) => self.is_over = true,
            Ok(length) => {
                self.input.extend(&buffer[..length]);
                self.last = now;
            }
            Err(error) => self.end_unless_pause(error),
        }
    }

    /// The next whole query that has come: two bytes say how long it is.
    fn next_query(&mut self) -> Option<Vec<u8>> {
        let [high, low] = *self.input.first_chunk::<LENGTH_BYTES>()?;
        let end = LENGTH_BYTES + usize::from(u16::from_be_bytes([high, low]));
        if self.input.len() < end {
            return None;
        }
        let rest = self.input.split_off(end);
        let query = std::mem::replace(&mut self.input, rest);
        Some(query[LENGTH_BYTES..].to_vec())
    }

    /// Sends what the client takes.
    fn flush(&mut self, now: u64) {
        while !self.output.is_empty() && !self.is_over {
            match self.stream.write(&self.output) {
                Ok(length) => {
                    self.output.drain(..length);
                    self.last = now;
                }
                Err(error) => return self.end_unless_pause(error),
            }
        }
    }

    fn end_unless_pause(&mut self, error: io::Error) {
        use ErrorKind::{Interrupted, WouldBlock};
        self.is_over |= !matches!(error.kind(), WouldBlock | Interrupted);
    }
}

#[cfg(test)]
mod tests {
    use super::*;
    use std::net::Ipv4Addr;
    use std::thread::sleep;
    use std::time::Duration;

    fn open() -> (Clients, SocketAddr) {
        let clients = Clients::open(SocketAddrV4::new(Ipv4Addr::LOCALHOST, 0));
        let clients = clients.unwrap();
        let address = clients.tcp.local_addr().unwrap();
        (clients, address)
    }

    /// What is heard first, within two seconds.
    fn first(clients: &mut Clients, now: u64) -> (Client, Vec<u8>) {
        for _ in 0..400 {
            if let Some(heard) = clients.hear(now).into_iter().next() {
                return heard;
            }
            sleep(Duration::from_millis(5));
        }
        panic!("nothing was heard");
    }

    #[test]
    fn a_query_by_udp() {
        let (mut clients, _) = open();
        let address = clients.udp.local_addr().unwrap();
        let asker = UdpSocket::bind((Ipv4Addr::LOCALHOST, 0)).unwrap();
        asker.send_to(b"a query", address).unwrap();
        let (client, query) = first(&mut clients, 0);
        assert_eq!(query, b"a query");
        clients.reply(0, client, b"an answer").unwrap();
        let mut buffer = [0; 16];
        let (length, source) = asker.recv_from(&mut buffer).unwrap();
        assert_eq!((&buffer[..length], source), (&b"an answer"[..], address));
    }

    #[test]
    fn queries_by_tcp_in_pieces() {
        let (mut clients, address) = open();
        let mut asker = TcpStream::connect(address).unwrap();
        asker.write_all(b"\0\x03on").unwrap();
        sleep(Duration::from_millis(50));
        assert_eq!(clients.hear(0), []);
        asker.write_all(b"e\0\x03two").unwrap();
        let (client, query) = first(&mut clients, 0);
        assert_eq!(query, b"one");
        clients.reply(0, client, b"an answer").unwrap();
        let mut buffer = [0; 11];
        asker.read_exact(&mut buffer).unwrap();
        assert_eq!(&buffer, b"\0\x09an answer");
    }

    #[test]
    fn a_connection_ends_by_its_client_or_when_it_is_idle() {
        let (mut clients, address) = open();
        let idle = TcpStream::connect(address).unwrap();
        let mut ended = TcpStream::connect(address).unwrap();
        ended.write_all(b"\0\x03one").unwrap();
        first(&mut clients, 0);
        drop(ended);
        sleep(Duration::from_millis(50));
        clients.hear(MOST_IDLE - 1);
        assert_eq!(clients.connections.len(), 1);
        clients.hear(MOST_IDLE);
        assert_eq!(clients.connections.len(), 0);
        drop(idle);
    }
}

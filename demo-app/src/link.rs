//! The link: datagrams between two sockets of this machine. Only the made losses lose a packet, for the sender never has more on the
//! way than the receiving socket holds.

use std::io;
use std::net::{Ipv4Addr, SocketAddr, UdpSocket};
use std::sync::{Condvar, Mutex, MutexGuard, PoisonError};
use std::thread;
use std::time::{Duration, Instant};

#[derive(Clone, Copy, Debug, PartialEq, Eq)]
pub enum Kind {
    Source,
    Repair,
    /// The end of the stream: no packet.
    End,
    /// A cell of a grid, whose number is the one in send order: a packet stands in it after a head of its own.
    Cell,
}

/// What stands before the packet in a datagram: its number in the stream, 4 bytes, its kind and its flow.
pub const HEAD: usize = 6;
pub const LARGEST: usize = 65_507;

pub fn write_head(datagram: &mut [u8], number: u32, kind: Kind, flow: u8) {
    datagram[..4].copy_from_slice(&number.to_be_bytes());
    datagram[4] = kind as u8;
    datagram[5] = flow;
}

/// Number, kind, flow and packet of a datagram; none for a foreign one.
pub fn read(datagram: &mut [u8]) -> Option<(u32, Kind, u8, &mut [u8])> {
    if datagram.len() < HEAD {
        return None;
    }
    let (head, packet) = datagram.split_at_mut(HEAD);
    let number = u32::from_be_bytes([head[0], head[1], head[2], head[3]]);
    let kind = match head[4] {
        0 => Kind::Source,
        1 => Kind::Repair,
        2 => Kind::End,
        3 => Kind::Cell,
        _ => return None,
    };
    Some((number, kind, head[5], packet))
}

/// Changes a bit of a packet, in its middle.
pub fn damage(packet: &mut [u8]) {
    let middle = packet.len() / 2;
    if let Some(byte) = packet.get_mut(middle) {
        *byte ^= 1;
    }
}

/// Waits until so many bytes since then are not too many for a pace in Mbit/s.
pub fn keep_pace(mbit: Option<f64>, start: Instant, bytes: u64) {
    let Some(mbit) = mbit else { return };
    let due = Duration::try_from_secs_f64(bytes as f64 * 8.0 / (mbit * 1e6)).unwrap_or(Duration::MAX);
    let early = due.saturating_sub(start.elapsed());
    if !early.is_zero() {
        thread::sleep(early);
    }
}

/// The sending and the receiving socket, each bound to the other alone, on ports that the system chose.
pub fn sockets() -> io::Result<(UdpSocket, UdpSocket)> {
    let any = SocketAddr::from((Ipv4Addr::LOCALHOST, 0));
    let (sending, receiving) = (UdpSocket::bind(any)?, UdpSocket::bind(any)?);
    sending.connect(receiving.local_addr()?)?;
    receiving.connect(sending.local_addr()?)?;
    receiving.set_read_timeout(Some(Duration::from_millis(500)))?;
    Ok((sending, receiving))
}

/// Lets the sender go on while there is room on the way. A datagram counts with what the system keeps beside it.
pub struct Gate {
    state: Mutex<State>,
    moved: Condvar,
}

#[derive(Default)]
struct State {
    on_the_way: usize,
    closed: bool,
}

const ROOM: usize = 96 * 1024;
const BESIDE: usize = 1024;

impl Gate {
    pub fn new() -> Gate {
        Gate { state: Mutex::default(), moved: Condvar::new() }
    }

    fn lock(&self) -> MutexGuard<'_, State> {
        self.state.lock().unwrap_or_else(PoisonError::into_inner)
    }

    /// Waits until a datagram of this length may go. False once the receiving end has closed the gate.
    pub fn enter(&self, length: usize) -> bool {
        let cost = length + BESIDE;
        let full = |state: &mut State| !state.closed && state.on_the_way > 0 && state.on_the_way + cost > ROOM;
        let mut state = self.moved.wait_while(self.lock(), full).unwrap_or_else(PoisonError::into_inner);
        state.on_the_way += cost;
        !state.closed
    }

    /// A datagram of this length has arrived.
    pub fn leave(&self, length: usize) {
        let mut state = self.lock();
        state.on_the_way = state.on_the_way.saturating_sub(length + BESIDE);
        self.moved.notify_one();
    }

    pub fn close(&self) {
        self.lock().closed = true;
        self.moved.notify_all();
    }
}

/// Closes the gate when the receiving end is done, whatever ended it.
pub struct Closing<'a>(pub &'a Gate);

impl Drop for Closing<'_> {
    fn drop(&mut self) {
        self.0.close();
    }
}

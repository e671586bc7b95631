//! Bytes to send, and who sent those that came.

use crate::sys;
use std::ops::Deref;

/// A datagram to send, sealed if the session has a secret, and the seat that it is for. It dereferences to its bytes.
#[derive(Clone, Copy, Debug)]
pub struct Packet {
    pub(crate) bytes: [u8; sys::PACKET],
    pub(crate) length: usize,
    pub(crate) to: u8,
}

impl Packet {
    /// The player that it is for, 1 to 4, or the watcher, 5 or 6.
    pub fn to(&self) -> u8 {
        self.to
    }
}

impl Deref for Packet {
    type Target = [u8];

    fn deref(&self) -> &[u8] {
        &self.bytes[..self.length]
    }
}

/// Who sealed a delivered packet.
#[derive(Clone, Copy, Debug, PartialEq, Eq, Hash)]
pub struct Sender {
    /// A player, 1 to 4, or a watcher, 5 or 6.
    pub seat: u8,
    /// Whether no packet that it sealed later came before. Then the sender is where this one came from: send there.
    pub is_newest: bool,
}

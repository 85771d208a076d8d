//! Bytes in a room of fixed size.

use core::fmt;
use core::ops::Deref;

/// At most N bytes, used as a slice: a message, a reply, or data.
#[derive(Clone)]
pub struct Bytes<const N: usize> {
    room: [u8; N],
    length: usize,
}

impl<const N: usize> Bytes<N> {
    /// The first bytes of a room.
    pub(crate) fn new(room: [u8; N], length: usize) -> Self {
        assert!(length <= N, "the library tells no more than the room has");
        Bytes { room, length }
    }
}

impl<const N: usize> Deref for Bytes<N> {
    type Target = [u8];

    fn deref(&self) -> &[u8] {
        &self.room[..self.length]
    }
}

impl<const N: usize> PartialEq for Bytes<N> {
    fn eq(&self, other: &Self) -> bool {
        **self == **other
    }
}

impl<const N: usize> Eq for Bytes<N> {}

impl<const N: usize> fmt::Debug for Bytes<N> {
    fn fmt(&self, f: &mut fmt::Formatter<'_>) -> fmt::Result {
        (**self).fmt(f)
    }
}

//! The soft tag.

use crate::bytes::Bytes;
use crate::ffi;
use crate::refusal::{Refusal, SheetRefusal};
use core::fmt;

/// How many bytes a tag has.
pub const TAG_BYTES: usize = 793;

/// The room for a reply.
const REPLY_ROOM: usize = 172;

/// A tag: what its sheet says, and its session. The bytes are those that include/roualint.h describes, so that a tag
/// can be stored and read back. A value of this type always has one of the four states, and a key for a challenge that
/// waits. One that [`Tag::new`] made is the standard's tag from then on (theorem sheet_run in
/// crates/capi/proofs/Runs.antt), also where it was stored in between; of bytes from elsewhere see [`Tag::from_bytes`].
#[derive(Clone, PartialEq, Eq)]
#[repr(transparent)]
pub struct Tag {
    bytes: [u8; TAG_BYTES],
}

/// The states of Annex A.
#[derive(Clone, Copy, PartialEq, Eq, Debug)]
pub enum State {
    /// Nothing is held.
    Initial,
    /// After IAM1: a challenge waits.
    IamInit,
    /// After MAM1: a challenge waits.
    MamInit,
    /// A reader was let in.
    IaOk,
}

/// The sizes in bytes of the areas that a tag wants lent.
#[derive(Clone, Copy, PartialEq, Eq, Debug)]
pub struct Areas {
    /// Of area 0.
    pub identity: usize,
    /// Of area 1.
    pub user: usize,
}

/// An accepted message.
#[derive(Clone, PartialEq, Eq, Debug)]
pub struct Accepted {
    /// What the tag sends. It is empty where a reader is let in.
    pub reply: Bytes<REPLY_ROOM>,
    /// The Purpose of a reader that is let in.
    pub purpose: Option<u8>,
}

impl Tag {
    /// The tag of a sheet, at its power-up.
    pub fn new(sheet: &[u8]) -> Result<Tag, SheetRefusal> {
        let mut tag = Tag { bytes: [0; TAG_BYTES] };
        tag.set_up(sheet)?;
        Ok(tag)
    }

    /// Sets the tag up anew, from another sheet. A refused sheet leaves it as it was.
    pub fn set_up(&mut self, sheet: &[u8]) -> Result<(), SheetRefusal> {
        let mut place = 0;
        // A slice has the bytes it says; tag and place are borrowed for writing, so nothing overlaps them.
        let number = unsafe { ffi::roualint_sheet(sheet.as_ptr(), sheet.len(), &mut self.bytes, &mut place) };
        Refusal::check(number).map_err(|refusal| SheetRefusal { refusal, place })
    }

    /// The tag of these bytes. Number 7 where the state is over 3, there are more than 16 locks or more than 16 key
    /// records, a challenge waits for a KeyID that no record has, or anything is held in Initial or IA-OK.
    ///
    /// That is all that is asked: the library can't tell a stored tag from bytes that were made by hand. So keep the
    /// bytes, like the keys they hold, where nobody else writes. Bytes from elsewhere are safe to pass: every call
    /// returns and keeps to its contract. But whoever makes the bytes chooses keys and challenges.
    pub fn from_bytes(bytes: [u8; TAG_BYTES]) -> Result<Tag, Refusal> {
        let mut areas = (0, 0);
        // The bytes are only read; the two sizes are places of their own.
        let number = unsafe { ffi::roualint_areas(&bytes, &mut areas.0, &mut areas.1) };
        Refusal::check(number).map(|()| Tag { bytes })
    }

    /// The tag's bytes. The keys of its sheet are among them.
    pub fn as_bytes(&self) -> &[u8; TAG_BYTES] {
        &self.bytes
    }

    /// Power-up and reset: the tag is in Initial and holds nothing. The session's sixteen bytes are zeros, all others
    /// stay.
    pub fn power_up(&mut self) {
        // The tag is borrowed for writing, and nothing else is lent.
        let number = unsafe { ffi::roualint_power_up(&mut self.bytes) };
        debug_assert_eq!(number, 0, "the bytes are a tag's");
    }

    /// The state.
    pub fn state(&self) -> State {
        // The tag is only read.
        match unsafe { ffi::roualint_state(&self.bytes) } {
            0 => State::Initial,
            1 => State::IamInit,
            2 => State::MamInit,
            3 => State::IaOk,
            _ => unreachable!("the bytes are a tag's"),
        }
    }

    /// The sizes of the areas that it wants lent.
    pub fn areas(&self) -> Areas {
        let mut areas = Areas { identity: 0, user: 0 };
        // The tag is only read; the two sizes are places of their own.
        let number = unsafe { ffi::roualint_areas(&self.bytes, &mut areas.identity, &mut areas.user) };
        debug_assert_eq!(number, 0, "the bytes are a tag's");
        areas
    }

    /// One message, with ten random bytes and both areas. Refused: 1 to 7, and no byte of an area changes; after 1 to 6
    /// the tag is in Initial and holds nothing, after 7 it is as it was.
    pub fn message(
        &mut self,
        message: &[u8],
        draws: &[u8],
        identity: &mut [u8],
        user: &mut [u8],
    ) -> Result<Accepted, Refusal> {
        let mut room = [0; REPLY_ROOM];
        let (mut length, mut purpose) = (0, 0);
        // Slices have the bytes they say; what may be written is borrowed for it or stands here, so nothing overlaps.
        let number = unsafe {
            ffi::roualint_message(
                &mut self.bytes,
                message.as_ptr(),
                message.len(),
                draws.as_ptr(),
                draws.len(),
                room.as_mut_ptr(),
                room.len(),
                identity.as_mut_ptr(),
                identity.len(),
                user.as_mut_ptr(),
                user.len(),
                &mut length,
                &mut purpose,
            )
        };
        Refusal::check(number)?;
        Ok(Accepted {
            reply: Bytes::new(room, length),
            purpose: (purpose < 16).then_some(purpose),
        })
    }

    /// How many bytes the library says a tag has.
    pub fn library_bytes() -> usize {
        // Nothing is lent.
        unsafe { ffi::roualint_tag_bytes() }
    }
}

/// The state alone: the keys are nobody's to print.
impl fmt::Debug for Tag {
    fn fmt(&self, f: &mut fmt::Formatter<'_>) -> fmt::Result {
        f.debug_struct("Tag")
            .field("state", &self.state())
            .finish_non_exhaustive()
    }
}

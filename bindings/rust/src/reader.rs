//! The reader's side.

use crate::bytes::Bytes;
use crate::chain::Block;
use crate::ffi;
use crate::refusal::Refusal;
use core::fmt;

const MESSAGE_ROOM: usize = 176;
const DATA_ROOM: usize = 144;

type Built = Result<Bytes<MESSAGE_ROOM>, Refusal>;

/// A reader with the keys of one record.
#[derive(Clone, PartialEq, Eq)]
pub struct Reader {
    enc: Block,
    mac: Option<Block>,
}

/// The size of a data block.
#[derive(Clone, Copy, PartialEq, Eq, Debug)]
pub enum BlockSize {
    /// BlockSize 0.
    Bits64,
    /// BlockSize 1.
    Bits16,
}

/// The custom data that a TAM2 or an IAM3 names.
#[derive(Clone, Copy, PartialEq, Eq, Debug)]
pub struct Custom {
    /// BlockSize.
    pub size: BlockSize,
    /// 0 to 15.
    pub profile: u8,
    /// 0 to 4,095, in data blocks.
    pub offset: u16,
    /// 0 to 15: the value n stands for n + 1 data blocks.
    pub count: u8,
    /// 0 to 3. 2 and 3 want a MAC key.
    pub protmode: u8,
}

/// What the data of a reply are worth.
#[derive(Clone, Copy, PartialEq, Eq, Debug)]
pub enum Worth {
    /// None came.
    NoData,
    /// No MAC proves them (ProtModes 0 and 1).
    Unproved,
    /// The MAC proves them (ProtModes 2 and 3).
    Proved,
}

/// A reply that is accepted.
#[derive(Clone, PartialEq, Eq, Debug)]
pub struct Judgement {
    /// The data of a TAM2.
    pub data: Bytes<DATA_ROOM>,
    /// What they are worth.
    pub worth: Worth,
    /// The challenge that the tag issued.
    pub challenge: Option<[u8; 10]>,
}

impl Reader {
    /// A reader with ENC_key and, where there is one, MAC_key.
    pub fn new(enc: Block, mac: Option<Block>) -> Reader {
        Reader { enc, mac }
    }

    /// The MAC key as the library takes it: no bytes for none.
    fn mac(&self) -> &[u8] {
        self.mac.as_ref().map_or(&[], |key| key)
    }

    /// TAM1.
    pub fn build_tam1(&self, keyid: u8, ichallenge: &[u8; 10]) -> Built {
        // The room has the bytes it says, and is borrowed for writing.
        built(|room, length| unsafe {
            ffi::roualint_build_tam1(keyid, ichallenge, room.as_mut_ptr(), room.len(), length)
        })
    }

    /// TAM2; `rev` is Rev 1.
    pub fn build_tam2(&self, rev: bool, keyid: u8, ichallenge: &[u8; 10], custom: Custom) -> Built {
        let mac = self.mac();
        // As above; keys and challenge are only read.
        built(|room, length| unsafe {
            ffi::roualint_build_tam2(
                &self.enc,
                mac.as_ptr(),
                mac.len(),
                custom.size.bit(),
                u8::from(rev),
                keyid,
                ichallenge,
                custom.profile,
                custom.offset,
                custom.count,
                custom.protmode,
                room.as_mut_ptr(),
                room.len(),
                length,
            )
        })
    }

    /// IAM1.
    pub fn build_iam1(&self, keyid: u8) -> Built {
        // The room has the bytes it says, and is borrowed for writing.
        built(|room, length| unsafe { ffi::roualint_build_iam1(keyid, room.as_mut_ptr(), room.len(), length) })
    }

    /// IAM2: the answer to the challenge that came with the reply to IAM1.
    pub fn build_iam2(&self, purpose: u8, irnd: &[u8; 4], tchallenge: &[u8; 10]) -> Built {
        let mac = self.mac();
        // As above; keys, IRnd and challenge are only read.
        built(|room, length| unsafe {
            ffi::roualint_build_iam2(
                &self.enc,
                mac.as_ptr(),
                mac.len(),
                purpose,
                irnd,
                tchallenge,
                room.as_mut_ptr(),
                room.len(),
                length,
            )
        })
    }

    /// IAM3: the same answer, with data to be written.
    pub fn build_iam3(
        &self,
        custom: Custom,
        purpose: u8,
        irnd: &[u8; 4],
        tchallenge: &[u8; 10],
        words: &[u8],
    ) -> Built {
        let mac = self.mac();
        // As above; keys, IRnd, challenge and words are only read.
        built(|room, length| unsafe {
            ffi::roualint_build_iam3(
                &self.enc,
                mac.as_ptr(),
                mac.len(),
                custom.size.bit(),
                custom.profile,
                custom.offset,
                custom.count,
                custom.protmode,
                purpose,
                irnd,
                tchallenge,
                words.as_ptr(),
                words.len(),
                room.as_mut_ptr(),
                room.len(),
                length,
            )
        })
    }

    /// MAM1.
    pub fn build_mam1(&self, keyid: u8, ichallenge: &[u8; 10]) -> Built {
        // The room has the bytes it says, and is borrowed for writing.
        built(|room, length| unsafe {
            ffi::roualint_build_mam1(keyid, ichallenge, room.as_mut_ptr(), room.len(), length)
        })
    }

    /// MAM2: the answer to the challenge that came with the reply to MAM1.
    pub fn build_mam2(&self, purpose: u8, ichallenge: &[u8; 10], tchallenge: &[u8; 10]) -> Built {
        let mac = self.mac();
        // As above; keys and challenges are only read.
        built(|room, length| unsafe {
            ffi::roualint_build_mam2(
                &self.enc,
                mac.as_ptr(),
                mac.len(),
                purpose,
                ichallenge,
                tchallenge,
                room.as_mut_ptr(),
                room.len(),
                length,
            )
        })
    }

    /// The judgement of a reply to the reader's own message. Refused: 20 to 24.
    pub fn judge(&self, message: &[u8], reply: &[u8]) -> Result<Judgement, Refusal> {
        let mac = self.mac();
        let mut room = [0; DATA_ROOM];
        let (mut length, mut worth, mut issued, mut challenge) = (0, 0, 0, [0; 10]);
        // Slices have the bytes they say; what may be written stands here, so nothing overlaps.
        let number = unsafe {
            ffi::roualint_judge(
                &self.enc,
                mac.as_ptr(),
                mac.len(),
                message.as_ptr(),
                message.len(),
                reply.as_ptr(),
                reply.len(),
                room.as_mut_ptr(),
                room.len(),
                &mut length,
                &mut worth,
                &mut issued,
                &mut challenge,
            )
        };
        Refusal::check(number)?;
        Ok(Judgement {
            data: Bytes::new(room, length),
            worth: Worth::of(worth),
            challenge: (issued == 1).then_some(challenge),
        })
    }
}

/// The message that is laid over the room's first bytes, of the length that is told; or the number of its refusal.
fn built(lay: impl FnOnce(&mut [u8; MESSAGE_ROOM], &mut usize) -> u8) -> Built {
    let (mut room, mut length) = ([0; MESSAGE_ROOM], 0);
    Refusal::check(lay(&mut room, &mut length))?;
    Ok(Bytes::new(room, length))
}

impl BlockSize {
    fn bit(self) -> u8 {
        match self {
            BlockSize::Bits64 => 0,
            BlockSize::Bits16 => 1,
        }
    }
}

impl Worth {
    fn of(number: u8) -> Worth {
        match number {
            0 => Worth::NoData,
            1 => Worth::Unproved,
            2 => Worth::Proved,
            _ => unreachable!("the library has three"),
        }
    }
}

/// Whether there is a MAC key: the keys are nobody's to print.
impl fmt::Debug for Reader {
    fn fmt(&self, f: &mut fmt::Formatter<'_>) -> fmt::Result {
        f.debug_struct("Reader")
            .field("mac", &self.mac.is_some())
            .finish_non_exhaustive()
    }
}

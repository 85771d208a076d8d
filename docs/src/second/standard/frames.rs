//! Messages of ISO/IEC 29167-10, clause 9, as strings of bits: each field in its width, most significant bit first.

use super::memory::BlockSize;

#[derive(Clone, Copy, PartialEq, Debug)]
pub enum Kind {
    Tam1,
    Tam2,
    Iam1,
    Iam2,
    Iam3,
    Mam1,
    Mam2,
}

/// In the order in which the drawn cases take turns.
pub const KINDS: [Kind; 7] = [
    Kind::Tam1,
    Kind::Tam2,
    Kind::Iam1,
    Kind::Iam2,
    Kind::Iam3,
    Kind::Mam1,
    Kind::Mam2,
];

/// Where a kind stands among the seven.
pub fn place(kind: Kind) -> usize {
    KINDS.iter().position(|&k| k == kind).expect("all kinds are there")
}

/// A place in a message's layout: bits that never change, or a field.
#[derive(Clone, Copy, PartialEq)]
pub enum Part {
    Fixed(u128),
    BlockSize,
    Rev,
    Rfu,
    KeyId,
    IChallenge,
    Profile,
    Offset,
    BlockCount,
    ProtMode,
    IResponse,
}

/// The fields of any message; those that a kind has not are of no account.
#[derive(Clone, Copy, Default)]
pub struct Fields {
    pub blocksize: u128,
    pub rev: u128,
    pub rfu: u128,
    pub keyid: u128,
    pub ichallenge: u128,
    pub profile: u128,
    pub offset: u128,
    pub blockcount: u128,
    pub protmode: u128,
    pub iresponse: u128,
}

impl Fields {
    fn part(&mut self, part: Part) -> Option<&mut u128> {
        match part {
            Part::Fixed(_) => None,
            Part::BlockSize => Some(&mut self.blocksize),
            Part::Rev => Some(&mut self.rev),
            Part::Rfu => Some(&mut self.rfu),
            Part::KeyId => Some(&mut self.keyid),
            Part::IChallenge => Some(&mut self.ichallenge),
            Part::Profile => Some(&mut self.profile),
            Part::Offset => Some(&mut self.offset),
            Part::BlockCount => Some(&mut self.blockcount),
            Part::ProtMode => Some(&mut self.protmode),
            Part::IResponse => Some(&mut self.iresponse),
        }
    }
}

/// Tables 4, 6, 15, 17, 18 (up to the first block of IResponse), 23 and 25, with the width of each part. All four bits
/// after Step are RFU in MAM2.
pub fn layout(kind: Kind) -> Vec<(Part, u32)> {
    use Part::*;
    let challenge = [(KeyId, 8), (IChallenge, 80)];
    let select = [(Profile, 4), (Offset, 12), (BlockCount, 4), (ProtMode, 4)];
    let (front, back): (Vec<(Part, u32)>, Vec<(Part, u32)>) = match kind {
        Kind::Tam1 => (vec![(Fixed(0b00), 2), (Fixed(0), 1), (Rfu, 5)], challenge.to_vec()),
        Kind::Tam2 => (
            vec![(Fixed(0b00), 2), (Fixed(1), 1), (BlockSize, 1), (Rev, 1), (Rfu, 3)],
            [&challenge[..], &select[..]].concat(),
        ),
        Kind::Iam1 => (vec![(Fixed(0b01), 2), (Fixed(0b00), 2), (Rfu, 4)], vec![(KeyId, 8)]),
        Kind::Iam2 => (
            vec![(Fixed(0b01), 2), (Fixed(0b01), 2), (Fixed(0), 1), (Rfu, 3)],
            vec![(IResponse, 128)],
        ),
        Kind::Iam3 => (
            vec![
                (Fixed(0b01), 2),
                (Fixed(0b01), 2),
                (Fixed(1), 1),
                (BlockSize, 1),
                (Rfu, 2),
            ],
            [&select[..], &[(IResponse, 128)]].concat(),
        ),
        Kind::Mam1 => (vec![(Fixed(0b10), 2), (Fixed(0b00), 2), (Rfu, 4)], challenge.to_vec()),
        Kind::Mam2 => (
            vec![(Fixed(0b10), 2), (Fixed(0b01), 2), (Rfu, 4)],
            vec![(IResponse, 128)],
        ),
    };
    [front, back].concat()
}

/// The kind whose fixed bits a first byte has, if any.
pub fn kind_of(first: u8) -> Option<Kind> {
    KINDS.into_iter().find(|&kind| {
        let mut left = 8;
        layout(kind)
            .into_iter()
            .take_while(|(part, _)| matches!(part, Part::Fixed(_)))
            .all(|(part, width)| {
                left -= width;
                part == Part::Fixed(u128::from(first) >> left & ((1 << width) - 1))
            })
    })
}

/// The bytes of a kind's layout.
pub fn layout_bytes(kind: Kind) -> usize {
    layout(kind).iter().map(|(_, width)| *width as usize).sum::<usize>() / 8
}

/// The message, where RFU is zero and each field fits its width.
pub fn message(kind: Kind, mut fields: Fields) -> Option<Vec<u8>> {
    let mut bits = Vec::new();
    for (part, width) in layout(kind) {
        let value = match part {
            Part::Fixed(value) => value,
            _ => *fields.part(part)?,
        };
        if part == Part::Rfu && value != 0 {
            return None;
        }
        put(&mut bits, value, width)?;
    }
    Some(bytes(&bits))
}

/// HEADER of 9.2: BlockSize, Profile, Offset, BlockCount, and zeros up to H bits.
pub fn header(fields: Fields) -> Option<Vec<u8>> {
    let mut bits = Vec::new();
    put(&mut bits, fields.blocksize, 1)?;
    put(&mut bits, fields.profile, 4)?;
    put(&mut bits, fields.offset, 12)?;
    put(&mut bits, fields.blockcount, 4)?;
    bits.resize(header_bits(fields.blocksize as usize), false);
    Some(bytes(&bits))
}

/// What a message of this kind says, its fixed bits aside. Bits past the end count as zeros.
pub fn fields(kind: Kind, message: &[u8]) -> Fields {
    let mut fields = Fields::default();
    let mut bits = message
        .iter()
        .flat_map(|byte| (0..8).rev().map(move |i| byte >> i & 1 == 1));
    for (part, width) in layout(kind) {
        let value = (0..width).fold(0, |value, _| value << 1 | u128::from(bits.next().unwrap_or(false)));
        if let Some(field) = fields.part(part) {
            *field = value;
        }
    }
    fields
}

/// A number's bits behind those that are there, where it fits the width.
fn put(bits: &mut Vec<bool>, value: u128, width: u32) -> Option<()> {
    if width < 128 && value >> width != 0 {
        return None;
    }
    bits.extend((0..width).rev().map(|i| value >> i & 1 == 1));
    Some(())
}

fn bytes(bits: &[bool]) -> Vec<u8> {
    bits.chunks(8)
        .map(|eight| eight.iter().fold(0, |byte, &bit| byte << 1 | u8::from(bit)))
        .collect()
}

/// H of 9.2.
pub fn header_bits(blocksize: usize) -> usize {
    if blocksize == 0 {
        64
    } else {
        32
    }
}

/// D by the formulas that 9.2 prints, n being the value of BlockCount. A header is there in TAM2 Rev 1 and IAM3.
pub fn d(blocksize: usize, header: bool, n: usize) -> usize {
    match (blocksize, header) {
        (0, false) => (n + 1) / 2 + (n + 1) % 2,
        (_, false) => (n + 8) / 8,
        (0, true) => (n + 2) / 2 + (n + 2) % 2,
        (_, true) => (n + 10) / 8,
    }
}

/// BlockCount counts from one block on.
pub fn data_bytes(blocksize: usize, n: usize) -> usize {
    (n + 1) * BlockSize { bit: blocksize }.bits() / 8
}

/// Table 3: the MAC of ProtModes 2 and 3 has 96 bits.
pub fn mac_bytes(protmode: usize) -> usize {
    match protmode {
        2 | 3 => 96 / 8,
        _ => 0,
    }
}

/// The authentication block, D blocks, and the MAC if any (Tables 7 to 14).
pub fn tam2_reply_bytes(blocksize: usize, rev: usize, n: usize, protmode: usize) -> usize {
    16 + 16 * d(blocksize, rev == 1, n) + mac_bytes(protmode)
}

/// Table 18: what stands before the data, D blocks, and the MAC if any.
pub fn iam3_bytes(blocksize: usize, n: usize, protmode: usize) -> usize {
    layout_bytes(Kind::Iam3) + 16 * d(blocksize, true, n) + mac_bytes(protmode)
}

/// Paper 01: IAM3 has at least 4 bytes and, in ProtModes 0 to 3, the length of its fields. The other modes have none of
/// their own. What is no message has no length.
pub fn length_fits(kind: Option<Kind>, message: &[u8]) -> bool {
    match kind {
        None => false,
        Some(Kind::Iam3) if message.len() < 4 => false,
        Some(Kind::Iam3) => {
            let f = fields(Kind::Iam3, message);
            f.protmode > 3
                || message.len() == iam3_bytes(f.blocksize as usize, f.blockcount as usize, f.protmode as usize)
        }
        Some(other) => message.len() == layout_bytes(other),
    }
}

/// Table 1: name, value, bits.
pub const CONSTANTS: [(&str, u16, u32); 13] = [
    ("C_TAM1", 0x96c5, 16),
    ("C_TAM2", 0x96c5, 16),
    ("C_TAM2_0", 0x96c0, 16),
    ("C_TAM2_1", 0x96c1, 16),
    ("C_TAM2_2", 0x96c2, 16),
    ("C_TAM2_3", 0x96c3, 16),
    ("C_MAM1", 0xda83, 16),
    ("C_MAM2", 0xda8, 12),
    ("C_IAM2", 0xda8, 12),
    ("C_IAM3_0", 0xda8, 12),
    ("C_IAM3_1", 0xda9, 12),
    ("C_IAM3_2", 0xdaa, 12),
    ("C_IAM3_3", 0xdab, 12),
];

/// The first two bytes of a block: the constant, and Purpose behind one of 12 bits.
pub fn constant_bytes(value: u16, width: u32, purpose: u16) -> [u8; 2] {
    match width {
        16 => value.to_be_bytes(),
        _ => (value << 4 | purpose).to_be_bytes(),
    }
}

/// A constant of Table 1 by its name.
pub fn constant(name: &str) -> u16 {
    CONSTANTS
        .iter()
        .find(|(known, _, _)| *known == name)
        .expect("a name of Table 1")
        .1
}

/// The RFU bits of a kind's first byte.
pub fn rfu_mask(kind: Kind) -> u8 {
    let mut left = 8;
    layout(kind)
        .into_iter()
        .take_while(|(part, _)| *part != Part::KeyId)
        .fold(0, |mask, (part, width)| {
            left -= width.min(left);
            if part == Part::Rfu {
                mask | ((1 << width) - 1) << left
            } else {
                mask
            }
        })
}

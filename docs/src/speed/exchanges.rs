//! What is played: a tag, and one or two messages for each kind that it accepts from its power-up.

use crate::frames::{data_bytes, Fields, Kind};
use crate::hex::{bytes, number};
use crate::memory::Memory;
use crate::reader::{asking, payload, plain, proving, writing};
use crate::sheet::{self, Key};

/// All features; 9 words of identity, 128 of user memory; profiles 0 and 1 over one area each; the first four words of
/// identity are locked. The key records stand between the two parts.
const OPENING: &str = "01 3F 0F  02 0009 0080";
const END: &str = "04 00 00 0000 0009  04 01 01 0000 0080  05 00 0000 0004  06";

/// The two keys of Annex F, Table F.1. The second is that of the last record, and the first that of all before it.
const FIRST: &str = "01 0002 000102030405060708090A0B0C0D0E0F 2B7E151628AED2A6ABF7158809CF4F3C";
const LAST: &str = "01 0007 0A1B2C3D4E5F6A7B8C9D0E1F2AB3C4D5 889900AABBCCDDEEFFAABBCCDDEEFF00";

/// The KeyID of the last record, which the messages name.
const KEYID: u8 = 0xf0;

/// The ten bytes that the tag draws in each call. They are TChallenge of IAM1 and of MAM1.
pub const DRAWS: [u8; 10] = [0x97, 0x86, 0xca, 0xfe, 0x01, 0xbb, 0x65, 0xdc, 0x23, 0x00];

const ICHALLENGE: &str = "96564402375796C69664";
const IRND: [u8; 4] = [0x88, 0x52, 0xbe, 0x01];
const PURPOSE: u8 = 0;

/// Each exchange is sent to a tag at its power-up. Where there is one message, the second is empty.
pub struct Exchange {
    pub name: String,
    pub first: Vec<u8>,
    pub second: Vec<u8>,
}

impl Exchange {
    pub fn messages(&self) -> usize {
        if self.second.is_empty() {
            1
        } else {
            2
        }
    }
}

/// The sheet of a tag with so many key records.
pub fn tag_sheet(keys: u8) -> Vec<u8> {
    let mut sheet = bytes(OPENING);
    for keyid in 0..keys - 1 {
        sheet.extend([0x03, keyid]);
        sheet.extend(bytes(FIRST));
    }
    sheet.extend([0x03, KEYID]);
    sheet.extend(bytes(LAST));
    sheet.extend(bytes(END));
    sheet
}

pub fn areas() -> Memory {
    Memory {
        identity: (0..18).collect(),
        user: (0..=255).collect(),
    }
}

/// Every kind; the custom data in blocks of 64 bits, one of them and 16.
pub fn all() -> Vec<Exchange> {
    let key = sheet::read(&tag_sheet(2)).expect("a good sheet").keys[1];
    let one = |name: &str, kind, f| alone(name.to_string(), asking(kind, f));
    let iam1 = asking(Kind::Iam1, fields(0, 0));
    let mam1 = asking(Kind::Mam1, fields(0, 0));
    let middle = &bytes(ICHALLENGE)[6..];

    let mut all = vec![one("TAM1", Kind::Tam1, fields(0, 0))];
    for (protmode, blocks) in [(0, 1), (0, 16), (1, 1), (1, 16), (2, 1), (2, 16), (3, 1), (3, 16)] {
        let name = format!("TAM2, ProtMode {protmode}, {}", counted(blocks));
        all.push(one(&name, Kind::Tam2, fields(protmode, blocks - 1)));
    }
    all.push(alone("IAM1".to_string(), iam1.clone()));
    all.push(Exchange {
        name: "IAM1, IAM2".to_string(),
        first: iam1.clone(),
        second: proving(Kind::Iam2, &key, &plain("C_IAM2", PURPOSE, &IRND, &DRAWS)),
    });
    for (protmode, blocks) in [(0, 1), (0, 16), (3, 1), (3, 16)] {
        all.push(Exchange {
            name: format!("IAM1, IAM3, ProtMode {protmode}, {}", counted(blocks)),
            first: iam1.clone(),
            second: iam3(&key, fields(protmode, blocks - 1)),
        });
    }
    all.push(alone("MAM1".to_string(), mam1.clone()));
    all.push(Exchange {
        name: "MAM1, MAM2".to_string(),
        first: mam1,
        second: proving(Kind::Mam2, &key, &plain("C_MAM2", PURPOSE, middle, &DRAWS)),
    });
    all
}

fn alone(name: String, first: Vec<u8>) -> Exchange {
    Exchange {
        name,
        first,
        second: Vec::new(),
    }
}

fn counted(blocks: u128) -> &'static str {
    if blocks == 1 {
        "1 block"
    } else {
        "16 blocks"
    }
}

/// The last record's key, profile 1 from its first word on, Rev 1. What a kind has not is of no account.
fn fields(protmode: u128, blockcount: u128) -> Fields {
    Fields {
        rev: 1,
        keyid: KEYID.into(),
        ichallenge: number(&bytes(ICHALLENGE)),
        profile: 1,
        blockcount,
        protmode,
        ..Fields::default()
    }
}

/// The data are not what the area holds at first.
fn iam3(key: &Key, f: Fields) -> Vec<u8> {
    let plain = plain(&format!("C_IAM3_{}", f.protmode), PURPOSE, &IRND, &DRAWS);
    let data = vec![0x5a; data_bytes(f.blocksize as usize, f.blockcount as usize)];
    writing(key, f, &plain, &payload(f, &data))
}

//! Both halves of the bench through the crate: exchanges of Annex F, refusals of each family, and that no byte outside
//! of what is lent is written. Prints one line where all is well; else it panics, and the status is not 0.

mod bench;
mod chaining;

use bench::{
    annex_f_sheet, array, hex, number, reader, Bench, IAM2, ICHALLENGE, IRND, OPENING, RFID, TCHALLENGE, VON_BRAUN,
};
use roualint::{Areas, BlockSize, Custom, Judgement, Reader, Refusal, State, Tag, Worth, TAG_BYTES};
use std::mem::{align_of, size_of};

fn custom(size: BlockSize, profile: u8, offset: u16, count: u8, protmode: u8) -> Custom {
    Custom {
        size,
        profile,
        offset,
        count,
        protmode,
    }
}

/// An accepted reply with these data, or with this challenge.
fn judged(judgement: Result<Judgement, Refusal>, data: &str, worth: Worth, challenge: Option<&str>) {
    let judgement = judgement.expect("accepted");
    assert_eq!(
        (judgement.data.to_vec(), judgement.worth),
        (hex(data), worth),
        "the data"
    );
    assert_eq!(judgement.challenge, challenge.map(array), "the challenge");
}

fn layout() {
    assert_eq!(
        (size_of::<Tag>(), align_of::<Tag>()),
        (TAG_BYTES, 1),
        "a tag has its bytes and nothing else"
    );
    assert_eq!(
        Tag::library_bytes(),
        size_of::<Tag>(),
        "the library's tag has as many bytes"
    );
}

fn sheets() {
    let sheet = annex_f_sheet();
    let mut tag = Tag::new(&sheet).expect("Annex F's sheet");
    let bytes = tag.as_bytes();
    assert!(bytes[..16] == [0; 16], "the session");
    assert!(
        bytes[16..18] == sheet[1..3] && bytes[18..22] == sheet[4..8],
        "features and sizes"
    );
    assert!(
        bytes[22..28] == [0; 6] && bytes[28..34] == [1, 0, 0, 0, 0, 9],
        "profile 1 of sixteen"
    );
    assert!(bytes[34..199].iter().all(|&b| b == 0), "no other profile, and no lock");
    assert!(
        bytes[199..201] == [0, 2] && bytes[201..275] == sheet[8..82] && bytes[275..].iter().all(|&b| b == 0),
        "the key records, and zeros"
    );
    assert_eq!(
        (tag.state(), tag.areas()),
        (State::Initial, Areas { identity: 18, user: 0 }),
        "a new tag"
    );

    let before = tag.clone();
    let longer = [&sheet[..], &[0]].concat();
    for (cut, refused, place) in [
        (&sheet[..0], 30, 0),
        (&sheet[..20], 30, 8),
        (&sheet[..45], 30, 45),
        (&sheet[3..], 32, 0),
        (&longer, 35, 90),
    ] {
        let refusal = tag.set_up(cut).expect_err("refused");
        assert_eq!(
            (number::<()>(Err(refusal.refusal)), refusal.place),
            (Some(refused), place),
            "a refused sheet"
        );
        assert_eq!(
            refusal.to_string(),
            format!("{} (place {place})", refusal.refusal),
            "its text"
        );
    }
    assert_eq!(tag, before, "a refused sheet leaves the tag as it was");
    tag.set_up(&hex(&[OPENING, "06"].concat())).expect("three records");
    assert!(
        tag.as_bytes()[22..].iter().all(|&b| b == 0),
        "no byte of the older sheet is left"
    );

    let mut bytes = *before.as_bytes();
    assert_eq!(Tag::from_bytes(bytes).as_ref(), Ok(&before), "bytes of a tag");
    bytes[0] = 4;
    assert_eq!(number(Tag::from_bytes(bytes)), Some(7), "a state that is none");
    (bytes[0], bytes[1]) = (1, 99);
    assert_eq!(
        number(Tag::from_bytes(bytes)),
        Some(7),
        "a challenge that waits under a key that no record has"
    );
    (bytes[0], bytes[1]) = (0, 1);
    assert_eq!(
        number(Tag::from_bytes(bytes)),
        Some(7),
        "a KeyID that is held in Initial"
    );
    bytes[1] = 0;
    for (place, most) in [(118, 16), (200, 16)] {
        let said = bytes[place];
        bytes[place] = most + 1;
        assert_eq!(
            number(Tag::from_bytes(bytes)),
            Some(7),
            "one lock, one key record more than there is room for"
        );
        bytes[place] = said;
    }
    assert_eq!(Tag::from_bytes(bytes).as_ref(), Ok(&before), "the tag again");
    let smallest = Tag::new(&hex("01 0000 02 0000 0000 06")).expect("the smallest sheet");
    assert_eq!(
        Tag::from_bytes([0; TAG_BYTES]).as_ref(),
        Ok(&smallest),
        "zeros are its tag"
    );
}

fn tag_authentication() {
    let (mut bench, reader, other) = (Bench::annex_f(), reader(0), reader(1));
    let message = reader.build_tam1(0, &array(ICHALLENGE)).expect("TAM1");
    let tag = bench.answers(
        &message,
        "6D696372000000000000",
        "E920530CC781B20CFE1AB4A0144E7335",
        State::Initial,
    );
    judged(reader.judge(&message, &tag.reply), "", Worth::NoData, None);
    assert_eq!(number(reader.judge(&message, &tag.reply[1..])), Some(20));
    assert_eq!(number(other.judge(&message, &tag.reply)), Some(21));
    assert_eq!(number(reader.judge(&message[1..], &tag.reply)), Some(24));

    // Rev 0, ProtMode 0: the same block, and the data with no header.
    let message = reader
        .build_tam2(false, 0, &array(ICHALLENGE), custom(BlockSize::Bits64, 1, 0, 1, 0))
        .expect("TAM2");
    assert_eq!(*message, hex("2000 96564402375796C69664 100010"), "Rev 0");
    let reply = "E920530CC781B20CFE1AB4A0144E7335 A16A76656E69617A5265676E756D5475";
    let tag = bench.answers(&message, "6D696372000000000000", reply, State::Initial);
    judged(
        reader.judge(&message, &tag.reply),
        "A16A76656E69617A5265676E756D5475",
        Worth::Unproved,
        None,
    );

    // F.16: Rev 1, ProtMode 3.
    let message = reader
        .build_tam2(true, 0, &array(ICHALLENGE), custom(BlockSize::Bits64, 1, 0, 1, 3))
        .expect("TAM2");
    assert_eq!(
        *message,
        hex("2800 96564402375796C69664 100013"),
        "the message is Annex F's"
    );
    let reply = "67039773F2C3C8E8B1D29254BADEF7C9 B86966552DEE705111D4C077009D777C 6D725BCD8DC8FA5C83960148241958C2
        E3546DEA93F24EE9B9799A43";
    let tag = bench.answers(&message, RFID, reply, State::Initial);
    judged(
        reader.judge(&message, &tag.reply),
        "A16A76656E69617A5265676E756D5475",
        Worth::Proved,
        None,
    );
    let mut forged = tag.reply.to_vec();
    forged[20] ^= 1;
    assert_eq!(number(reader.judge(&message, &forged)), Some(22));

    // F.20: ProtMode 0, by a reader that has no MAC key.
    let plain = Reader::new(array("000102030405060708090A0B0C0D0E0F"), None);
    let message = plain
        .build_tam2(true, 0, &array(ICHALLENGE), custom(BlockSize::Bits16, 1, 0, 7, 0))
        .expect("TAM2");
    let reply = "D43EF22E787383D87DAFD67617A7D6EE 88003800A16A76656E69617A5265676E 756D5475000000000000000000000000";
    let tag = bench.answers(&message, RFID, reply, State::Initial);
    judged(
        plain.judge(&message, &tag.reply),
        "A16A76656E69617A5265676E756D5475",
        Worth::Unproved,
        None,
    );
    let mut forged = tag.reply.to_vec();
    forged[16] ^= 1;
    assert_eq!(number(plain.judge(&message, &forged)), Some(23));
}

fn interrogator_authentication() {
    let (mut bench, reader) = (Bench::annex_f(), reader(1));
    let iam1 = reader.build_iam1(1).expect("IAM1");
    let tag = bench.answers(&iam1, TCHALLENGE, TCHALLENGE, State::IamInit);
    assert_eq!(
        bench.tag.as_bytes()[..16],
        hex("0101 9786CAFE01BB65DC2300 00000000"),
        "state, KeyID and TChallenge"
    );
    judged(reader.judge(&iam1, &tag.reply), "", Worth::NoData, Some(TCHALLENGE));

    let waiting = bench.tag.clone();
    assert_eq!(number(bench.send(&hex(IAM2), "00")), Some(7), "one draw");
    assert_eq!(bench.tag, waiting, "number 7 changes nothing");

    let iam2 = reader.build_iam2(0, &array(IRND), &array(TCHALLENGE)).expect("IAM2");
    assert_eq!(*iam2, hex(IAM2), "the message is Annex F's");
    let tag = bench.lets_in(&iam2, 0);
    judged(reader.judge(&iam2, &tag.reply), "", Worth::NoData, None);
    bench.tag.power_up();
    assert_eq!(bench.tag, Bench::annex_f().tag, "power-up");

    // Another Purpose is handed out as it came.
    bench.answers(&iam1, TCHALLENGE, TCHALLENGE, State::IamInit);
    let iam2 = reader.build_iam2(5, &array(IRND), &array(TCHALLENGE)).expect("IAM2");
    bench.lets_in(&iam2, 5);

    // F.29: ProtMode 3, two blocks of 16 bits from the third word on.
    bench.answers(&iam1, TCHALLENGE, TCHALLENGE, State::IamInit);
    let words = custom(BlockSize::Bits16, 1, 2, 1, 3);
    let iam3 = reader
        .build_iam3(words, 0, &array(IRND), &array(TCHALLENGE), &hex("AABBCCDD"))
        .expect("IAM3");
    assert_eq!(
        *iam3,
        hex("5C100213 5D3F017B042E02228D26C90DBDB513DA 49E163B8C7A3316BA0A1E3EB62088358 624C8B0CDBE35E089F1C355F")
    );
    bench.lets_in(&iam3, 0);
    bench.holds(&hex("A16A7665AABBCCDD5265676E756D5475756D"), &[]);
}

fn mutual_authentication() {
    let (mut bench, reader) = (Bench::annex_f(), reader(1));
    let mam1 = reader.build_mam1(1, &array(ICHALLENGE)).expect("MAM1");
    let tag = bench.answers(
        &mam1,
        VON_BRAUN,
        "47D77088E9143699215C9D162D8A310A 566F6E204272",
        State::MamInit,
    );
    assert_eq!(
        bench.tag.as_bytes()[..16],
        hex("0201 566F6E20427261756E20 96C69664"),
        "what is held"
    );
    judged(reader.judge(&mam1, &tag.reply), "", Worth::NoData, Some(VON_BRAUN));
    let mam2 = reader
        .build_mam2(0, &array(ICHALLENGE), &array(VON_BRAUN))
        .expect("MAM2");
    assert_eq!(
        *mam2,
        hex("90 F537798C9E30CF1999E3C52A7994BD93"),
        "the message is Annex F's"
    );
    bench.lets_in(&mam2, 0);

    // Another Purpose is handed out as it came.
    bench.send(&mam1, VON_BRAUN).expect("MAM1");
    let mam2 = reader
        .build_mam2(14, &array(ICHALLENGE), &array(VON_BRAUN))
        .expect("MAM2");
    bench.lets_in(&mam2, 14);
}

/// Profile 0 over words 4 to 271 of area 1: IAM3 writes there and TAM2 reads, in blocks of both sizes, with Offsets of
/// two bytes.
fn user_area() {
    let keys = "0A1B2C3D4E5F6A7B8C9D0E1F2AB3C4D5 889900AABBCCDDEEFFAABBCCDDEEFF00";
    let sheet = hex(&["01 3D 0F 02 0000 0110 03 01 01 0001", keys, "04 00 01 0004 010C 06"].concat());
    let (reader, mut words) = (reader(1), vec![0xa5; 544]);
    let mut bench = Bench::new(&sheet, &[], &words);
    assert_eq!(bench.tag.areas(), Areas { identity: 0, user: 544 }, "the sizes");

    // One block of 64 bits at Offset 2: words 12 to 15. Two of 16 bits at Offset 258: words 262 and 263.
    for (block, purpose, text, place) in [
        (custom(BlockSize::Bits64, 0, 2, 0, 3), 9, "0011223344556677", 24),
        (custom(BlockSize::Bits16, 0, 258, 1, 1), 15, "AABBCCDD", 524),
    ] {
        bench.send(&hex("4001"), TCHALLENGE).expect("IAM1");
        let text = hex(text);
        let iam3 = reader
            .build_iam3(block, purpose, &array(IRND), &array(TCHALLENGE), &text)
            .expect("IAM3");
        bench.lets_in(&iam3, purpose);
        words[place..][..text.len()].copy_from_slice(&text);
        bench.holds(&[], &words);
    }

    // What was written is read: of the first block, in both sizes, and of the second.
    for (block, message, data) in [
        (
            custom(BlockSize::Bits64, 0, 2, 0, 3),
            "2801 96564402375796C69664 000203",
            "0011223344556677",
        ),
        (
            custom(BlockSize::Bits16, 0, 9, 2, 3),
            "3801 96564402375796C69664 000923",
            "223344556677",
        ),
        (
            custom(BlockSize::Bits16, 0, 258, 1, 2),
            "3801 96564402375796C69664 010212",
            "AABBCCDD",
        ),
    ] {
        let tam2 = reader.build_tam2(true, 1, &array(ICHALLENGE), block).expect("TAM2");
        assert_eq!(*tam2, hex(message), "the message");
        let tag = bench.send(&tam2, RFID).expect("accepted");
        judged(reader.judge(&tam2, &tag.reply), data, Worth::Proved, None);
    }

    // Word 272 is behind the profile.
    bench.refuses("3801 96564402375796C69664 010C00", 3);
    let short = bench
        .tag
        .message(&hex("4001"), &hex(TCHALLENGE), &mut [], &mut words[1..]);
    assert_eq!(number(short), Some(7), "an area of 543 bytes");
}

fn refusals() {
    let mut bench = Bench::annex_f();
    bench.refuses("", 1);
    bench.refuses("00", 1);
    bench.refuses("0002 96564402375796C69664", 2);
    bench.refuses("2800 96564402375796C69664 100020", 3);
    bench.refuses(IAM2, 5);
    bench.send(&hex("4001"), TCHALLENGE).expect("IAM1");
    bench.refuses("50 2C79B76E2EF8B47F6DC4E861EA2F3D5F", 6);
    let short = bench.tag.message(&hex("4001"), &hex(TCHALLENGE), &mut [0; 17], &mut []);
    assert_eq!(number(short), Some(7), "an area of 17 bytes");

    let (plain, keyed) = (Reader::new([0; 16], None), reader(0));
    let tam2 = |reader: &Reader, custom| number(reader.build_tam2(true, 0, &[0; 10], custom));
    assert_eq!(
        tam2(&plain, custom(BlockSize::Bits64, 0, 0, 0, 2)),
        Some(24),
        "ProtMode 2 and no MAC key"
    );
    for (profile, offset, count, protmode) in [(16, 0, 0, 0), (0, 4096, 0, 0), (0, 0, 16, 0), (0, 0, 0, 4)] {
        assert_eq!(
            tam2(&keyed, custom(BlockSize::Bits64, profile, offset, count, protmode)),
            Some(24)
        );
    }
    assert_eq!(number(keyed.build_iam2(16, &[0; 4], &[0; 10])), Some(24), "Purpose 16");
}

fn main() {
    layout();
    sheets();
    tag_authentication();
    interrogator_authentication();
    mutual_authentication();
    user_area();
    refusals();
    chaining::cipher_and_chaining();
    chaining::large_inputs();
    println!(
        "bindings/rust: Annex F's TAM1, TAM2, IAM2, IAM3 and MAM through both halves; Rev 0; Purposes; \
         a user area; numbers and texts 1 to 3, 5 to 8, 20 to 24, 30, 32, 35; layout; guards; 64 MB in 64 KB of stack"
    );
}

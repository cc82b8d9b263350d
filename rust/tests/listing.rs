//! The bench listing of the scope paper, its items taken through the crate's calls, and through its reader: each line, and the sum of the
//! whole room after it.
use dawnstook::*;

/// The scope paper's input; fifteen zero bytes of a word are written as one `z`.
const INPUT: &str = "03 060202 010100 0499 0002ae7c 18 z 010100 0499 0002ae7c 28 z 02010401280201 0499 0002ae9a 0501 0a";

/// A line of the scope paper's listing, and the room's Adler-32 then.
const LISTING: [(&str, u32); 7] = [
    ("r 3", 0xe188_0001),
    ("f 0", 0xa1e4_1be9),
    ("w 0", 0xf292_1cb6),
    ("w 0", 0x0344_1bb7),
    ("t 0 1", 0x2419_1bdf),
    ("p 0 E01 40 1177 175740 000000000000000000000000000000000000", 0x2419_1bdf),
    ("x 13", 0x2419_1bdf),
];

fn adler32(bytes: &[u8]) -> u32 {
    let (a, b) = bytes.iter().fold((1, 0), |(a, b), byte| {
        let a = (a + u32::from(*byte)) % 65_521;
        (a, (b + a) % 65_521)
    });
    b << 16 | a
}

fn input() -> Vec<u8> {
    let hex = INPUT.replace('z', &"00".repeat(15)).replace(' ', "");
    (0..hex.len()).step_by(2).map(|i| u8::from_str_radix(&hex[i..i + 2], 16).unwrap()).collect()
}

fn line(letter: char, answer: Result<String, Refusal>) -> String {
    match answer {
        Ok(values) => format!("{letter} 0{values}"),
        Err(why) => format!("{letter} {}", why.number()),
    }
}

fn gst(bytes: &[u8]) -> Result<Gst, Refusal> {
    Gst::try_new(u16::from_be_bytes([bytes[0], bytes[1]]), u32::from_be_bytes([bytes[2], bytes[3], bytes[4], bytes[5]]))
}

fn word(room: &mut [u8], body: &[u8]) -> Result<String, Refusal> {
    let word = body[8..24].try_into().unwrap();
    Store::resume(room).feed(word, Svn::try_from(body[0])?, gst(&body[2..8])?, InavBand::try_from(body[1])?)?;
    Ok(String::new())
}

fn tag(room: &mut [u8], body: &[u8]) -> Result<String, Refusal> {
    let mut store = Store::resume(room);
    let tag = Tag { svn: Svn::try_from(body[0])?, adkd: Adkd::try_from(body[1])?, cop: body[2], mack: gst(&body[6..12])? };
    let given = store.candidate(tag)?.to_vec();
    let records = store.tag(tag, body[3], NmaStatus::try_from(body[4])?, &given, body[5] != 0)?;
    Ok(format!(" {records}"))
}

fn ask(room: &mut [u8], timing: bool, satellite: u8) -> Result<String, Refusal> {
    let (store, svn) = (Store::resume(room), Svn::try_from(satellite)?);
    let told = if timing { store.get_timing_parameters(svn)? } else { store.get_ced_and_status(svn)? };
    let hex: String = told.data().iter().map(|byte| format!("{byte:02x}")).collect();
    Ok(format!(" {svn} {} {} {} {hex}", told.authbits(), told.gst().wn().get(), told.gst().tow().get()))
}

#[test]
fn document_01s_listing() {
    let input = input();
    let mut room = [0; MOST_ROOM];
    let mut at = 0;
    for (expected, sum) in LISTING {
        let (kind, body) = (input[at], &input[at + 1..]);
        let (length, said) = match kind {
            1 => (24, line('w', word(&mut room, body))),
            2 => (12, line('t', tag(&mut room, body))),
            3 => (0, line('r', Store::resume(&mut room).reset_authbits().map(|()| String::new()))),
            4 => (1, line('c', ask(&mut room, false, body[0]))),
            5 => (1, line('p', ask(&mut room, true, body[0]))),
            6 => (2, line('f', Store::new(&mut room, body[0], body[1], Ageing::Moves).map(|_| String::new()))),
            _ => (0, "x 13".to_string()),
        };
        assert_eq!(said, expected);
        assert_eq!(adler32(&room), sum, "after {said}");
        at += 1 + length;
    }
    assert_eq!(at, input.len());
}

/// With an output for one line a call stops behind each item, inside the next.
#[test]
fn document_01s_listing_through_a_reader() {
    let input = input();
    let (mut reader, mut room, mut rest) = (Reader::new(), [0; MOST_ROOM], &input[..]);
    for (expected, sum) in LISTING {
        let mut out = [0; LONGEST_LINE];
        let heard = reader.part(&mut room, rest, &mut out);
        assert_eq!(String::from_utf8_lossy(&out[..heard.said]), format!("{expected}\n"));
        assert_eq!(adler32(&room), sum, "after {expected}");
        rest = &rest[heard.took..];
    }
    assert!(rest.is_empty());
    assert_eq!(reader.end_with(&room, |_| unreachable!("an input ends once")), Err(Refusal::UnknownKind));
}

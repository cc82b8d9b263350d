//! The reader: an input in parts of any size comes to the lines and the room that it comes to in one.
use dawnstook::*;

/// The listing of STORE 17.7 and its lines; fifteen zero bytes of a word are written as one `z`.
const INPUT: &str = "03 060202 010100 0499 0002ae7c 18 z 010100 0499 0002ae7c 28 z 02010401280201 0499 0002ae9a 0501 0a";
const LINES: &str = "r 3\nf 0\nw 0\nw 0\nt 0 1\np 0 E01 40 1177 175740 000000000000000000000000000000000000\nx 13\n";
const ROOM: usize = room_size(2, 2);

fn input() -> Vec<u8> {
    let hex = INPUT.replace('z', &"00".repeat(15)).replace(' ', "");
    (0..hex.len()).step_by(2).map(|i| u8::from_str_radix(&hex[i..i + 2], 16).unwrap()).collect()
}

/// Where each item of the listing begins, and where the last ends.
fn borders() -> Vec<usize> {
    let mut at = vec![0];
    for bytes in [1, 3, 25, 25, 13, 2, 1] {
        at.push(at[at.len() - 1] + bytes);
    }
    at
}

/// A reader with its room, and all the lines that it wrote.
#[derive(Clone, Debug, PartialEq)]
struct Run {
    reader: Reader,
    room: [u8; ROOM],
    lines: Vec<u8>,
}

impl Run {
    fn new() -> Run {
        Run { reader: Reader::new(), room: [0; ROOM], lines: Vec::new() }
    }

    /// A whole part through an output of so many bytes.
    fn part(&mut self, bytes: &[u8], out: usize) -> Result<(), Refusal> {
        let (mut rest, mut out) = (bytes, vec![b'?'; out]);
        loop {
            let heard = self.reader.part(&mut self.room, rest, &mut out);
            assert!(heard.took > 0 || rest.is_empty(), "a byte is taken");
            self.lines.extend_from_slice(&out[..heard.said]);
            rest = &rest[heard.took..];
            if rest.is_empty() {
                return heard.status;
            }
        }
    }

    fn end(&mut self) -> Result<(), Refusal> {
        let mut out = [b'?'; LONGEST_LINE];
        let closed = self.reader.end(&self.room, &mut out);
        assert!(closed.taken);
        self.lines.extend_from_slice(&out[..closed.said]);
        closed.status
    }

    fn text(&self) -> &str {
        std::str::from_utf8(&self.lines).unwrap()
    }

    /// The same lines and the same room; what a reader keeps behind the end is its own affair.
    fn same(&self, other: &Run) -> bool {
        (&self.lines, self.room) == (&other.lines, other.room)
    }
}

/// The listing in one part with much room for its lines.
fn whole() -> Run {
    let mut run = Run::new();
    assert_eq!(run.part(&input(), 10 * LONGEST_LINE), Err(Refusal::UnknownKind));
    assert_eq!(run.text(), LINES);
    run
}

#[test]
fn the_listing_in_two_parts() {
    let (input, whole) = (input(), whole());
    assert_eq!(borders()[7], input.len());
    for cut in 0..=input.len() {
        for out in [LONGEST_LINE, LONGEST_LINE + 1, 2 * LONGEST_LINE, 10 * LONGEST_LINE] {
            let mut run = Run::new();
            let expected = if cut < input.len() { Ok(()) } else { Err(Refusal::UnknownKind) };
            assert_eq!(run.part(&input[..cut], out), expected, "{cut} {out}");
            assert_eq!(run.part(&input[cut..], out), Err(Refusal::UnknownKind), "{cut} {out}");
            assert_eq!(run.end(), Err(Refusal::UnknownKind));
            assert!(run.same(&whole), "{cut} {out}");
        }
    }
}

#[test]
fn the_listing_in_parts_of_each_length() {
    let (input, whole) = (input(), whole());
    for bytes in 1..=input.len() {
        let (mut run, mut status) = (Run::new(), Ok(()));
        for part in input.chunks(bytes) {
            assert_eq!(status, Ok(()));
            status = run.part(part, LONGEST_LINE);
        }
        assert_eq!(status, Err(Refusal::UnknownKind));
        assert!(run.same(&whole), "{bytes}");
    }
}

#[test]
fn single_bytes_with_nothing_between() {
    let (input, mut run) = (input(), Run::new());
    for (i, byte) in input.iter().enumerate() {
        for out in [0, LONGEST_LINE] {
            let before = run.clone();
            assert_eq!(run.part(&[], out), Ok(()));
            assert_eq!(run, before, "an empty part is not the end");
        }
        let expected = if i + 1 < input.len() { Ok(()) } else { Err(Refusal::UnknownKind) };
        assert_eq!(run.part(&[*byte], LONGEST_LINE), expected);
    }
    assert!(run.same(&whole()));
}

/// Each line comes by itself, with the room after its item.
#[test]
fn a_line_for_each_record() {
    let (input, borders) = (input(), borders());
    let (mut run, mut heard) = (Run::new(), Vec::new());
    let status = run.reader.part_with(&mut run.room, &input, |line| heard.push(line.to_vec()));
    assert_eq!(status, Err(Refusal::UnknownKind));
    assert_eq!(heard, LINES.split_inclusive('\n').map(|line| line.as_bytes().to_vec()).collect::<Vec<_>>());
    assert_eq!(run.room, whole().room);
    assert_eq!(run.reader.end_with(&run.room, |_| unreachable!("a second end has no line")), Err(Refusal::UnknownKind));

    let mut run = Run::new();
    for (i, line) in LINES.split_inclusive('\n').enumerate() {
        let before = run.room;
        let last = borders[i + 1] - 1;
        run.reader.part_with(&mut run.room, &input[borders[i]..last], |_| unreachable!("no item is whole")).unwrap();
        assert_eq!(run.room, before, "the beginning of an item makes no call");
        let mut lines = Vec::new();
        let status = run.reader.part_with(&mut run.room, &input[last..=last], |line| lines.extend_from_slice(line));
        assert_eq!(status.is_ok(), i < 6);
        assert_eq!(lines, line.as_bytes());
    }
}

/// An output that is too short stops before the byte that would make an item whole, and loses nothing.
#[test]
fn too_short_an_output_loses_nothing() {
    let (input, borders, whole) = (input(), borders(), whole());
    for short in [0, 1, 4, LONGEST_LINE - 1] {
        let mut run = Run::new();
        for i in 0..7 {
            let mut out = vec![b'?'; short];
            let (before, last) = (run.room, borders[i + 1] - 1);
            let heard = run.reader.part(&mut run.room, &input[borders[i]..], &mut out);
            assert_eq!(heard, Heard { took: last - borders[i], said: 0, status: Ok(()) });
            let again = run.reader.part(&mut run.room, &input[last..], &mut out);
            assert_eq!(again, Heard { took: 0, said: 0, status: Ok(()) });
            assert_eq!(run.room, before);
            let _ = run.part(&input[last..=last], LONGEST_LINE);
        }
        assert!(run.same(&whole), "{short}");
    }
}

/// So many lines fit as there are bytes for, each time with the longest line left.
#[test]
fn as_many_lines_as_fit() {
    for lines in 1..=40 {
        let (mut run, mut out) = (Run::new(), [b'?'; LONGEST_LINE + 4 * 39]);
        let bytes = LONGEST_LINE + 4 * (lines - 1);
        let heard = run.reader.part(&mut run.room, &[3; 100], &mut out[..bytes]);
        assert_eq!(heard, Heard { took: lines, said: 4 * lines, status: Ok(()) });
        assert_eq!(&out[..heard.said], "r 3\n".repeat(lines).as_bytes());
        assert!(out[bytes..].iter().all(|byte| *byte == b'?'), "no byte behind the output");
    }
}

#[test]
fn thirteen_stays() {
    for kind in (0..=u8::MAX).filter(|kind| !matches!(kind, 1..=6 | 9)) {
        let mut run = Run::new();
        assert_eq!(run.part(&[3, kind, 3, 6, 1, 1], LONGEST_LINE), Err(Refusal::UnknownKind), "{kind}");
        assert_eq!(run.text(), "r 3\nx 13\n");
        let before = run.clone();
        for bytes in [&[][..], &[3], &[6, 1, 1], &input()] {
            for out in [0, LONGEST_LINE] {
                let heard = run.reader.part(&mut run.room, bytes, &mut vec![0; out]);
                assert_eq!(heard, Heard { took: bytes.len(), said: 0, status: Err(Refusal::UnknownKind) });
                let closed = run.reader.end(&run.room, &mut vec![0; out]);
                assert_eq!(closed, Closed { taken: true, said: 0, status: Err(Refusal::UnknownKind) });
            }
        }
        assert_eq!(run, before);
    }
}

/// Inside an item, and there alone, the end is cut short; a part that ends there is not the end.
#[test]
fn fourteen_at_the_end_alone() {
    let (input, borders) = (input(), borders());
    for cut in 0..input.len() {
        let mut run = Run::new();
        assert_eq!(run.part(&input[..cut], LONGEST_LINE), Ok(()));
        let (before, inside) = (run.clone(), !borders.contains(&cut));
        let expected = if inside { Err(Refusal::CutShort) } else { Ok(()) };
        if inside {
            for short in [0, 4, LONGEST_LINE - 1] {
                let mut out = vec![b'?'; short];
                let closed = run.reader.end(&run.room, &mut out);
                assert_eq!(closed, Closed { taken: false, said: 0, status: Err(Refusal::CutShort) });
                assert_eq!(run, before, "an end that is not taken changes nothing");
                assert!(out.iter().all(|byte| *byte == b'?'), "and writes nothing");
            }
        } else {
            let closed = run.clone().reader.end(&run.room, &mut []);
            assert_eq!(closed, Closed { taken: true, said: 0, status: Ok(()) });
        }
        assert_eq!(run.end(), expected, "{cut}");
        assert_eq!(run.text(), before.text().to_string() + if inside { "x 14\n" } else { "" });
        assert_eq!(run.room, before.room);

        let ended = run.clone();
        assert_eq!(run.part(&input[cut..], LONGEST_LINE), expected, "a part behind the end");
        assert_eq!(run.part(&[], 0), expected);
        assert_eq!(run.end(), expected, "a second end");
        assert_eq!(run, ended, "nothing changes behind the end");
    }
}

/// Kind 9 makes a store with the rule in its body, kind 6 one of `Moves`, whatever was there; a refused one leaves the store its rule.
#[test]
fn fresh_with_a_rule() {
    let made = |ageing| {
        let mut room = [0; ROOM];
        Store::new(&mut room, 2, 2, ageing).unwrap();
        room
    };
    let steps: [(&[u8], &str, Ageing); 10] = [
        (&[9, 2, 2, 1], "f 0\n", Ageing::Time),
        (&[9, 2, 2, 2], "f 1\n", Ageing::Time),
        (&[9, 2, 2, 255], "f 1\n", Ageing::Time),
        (&[9, 0, 2, 0], "f 1\n", Ageing::Time),
        (&[9, 3, 2, 0], "f 2\n", Ageing::Time),
        (&[6, 2, 37], "f 1\n", Ageing::Time),
        (&[6, 2, 2], "f 0\n", Ageing::Moves),
        (&[9, 2, 2, 1], "f 0\n", Ageing::Time),
        (&[3], "r 0\n", Ageing::Time),
        (&[9, 2, 2, 0], "f 0\n", Ageing::Moves),
    ];
    for bytes in 1..=4 {
        let (mut run, mut lines) = (Run::new(), String::new());
        for (item, line, ageing) in steps {
            for part in item.chunks(bytes) {
                assert_eq!(run.part(part, LONGEST_LINE), Ok(()));
            }
            lines += line;
            assert_eq!((run.text(), run.room), (&lines[..], made(ageing)));
        }
        assert_eq!(run.part(&[9, 2, 2], LONGEST_LINE), Ok(()));
        assert_eq!(run.end(), Err(Refusal::CutShort));
    }
}

#[test]
fn a_reader_is_its_bytes() {
    let (input, whole) = (input(), whole());
    assert_eq!(Reader::new(), Reader::resume([0; READER_BYTES]));
    assert_eq!(Reader::new(), Reader::default());
    let mut run = Run::new();
    for part in input.chunks(5) {
        run.reader = Reader::resume(run.reader.state());
        let _ = run.part(part, LONGEST_LINE);
    }
    assert!(run.same(&whole));
}

/// How many bytes of a reader's state are the beginning of an item: none where those that it says it keeps are not.
fn kept(state: &[u8; READER_BYTES]) -> usize {
    let longest = match state[0] {
        1 => 24,
        2 => 12,
        4 | 5 => 1,
        6 => 2,
        9 => 3,
        _ => 0,
    };
    Some(usize::from(state[25])).filter(|kept| *kept <= longest).unwrap_or(0)
}

/// Any bytes are a reader: one that goes on from what it keeps, or one that has ended with a number.
#[test]
fn any_bytes_are_a_reader() {
    let (input, mut seed) = (input(), 1u64);
    let mut next = || {
        seed = seed.wrapping_mul(6_364_136_223_846_793_005).wrapping_add(1_442_695_040_888_963_407);
        (seed >> 56) as u8
    };
    for round in 0..3000 {
        let mut state = [0; READER_BYTES].map(|_| next());
        if round % 4 != 0 {
            (state[0], state[25], state[26]) = (state[0] % 11, state[25] % 32, 0);
        }
        let mut run = Run { reader: Reader::resume(state), ..Run::new() };
        let status = run.part(&input, LONGEST_LINE);
        let mut expected = Run::new();
        if state[26] == 0 {
            expected.part(&state[..kept(&state)], LONGEST_LINE).unwrap();
            assert_eq!(status, expected.part(&input, LONGEST_LINE), "{state:?}");
        } else {
            assert_eq!(status.map_or_else(Refusal::number, |()| 0), state[27], "{state:?}");
        }
        assert!(run.same(&expected), "{state:?}");
        let closed = run.end();
        let again = run.reader.end(&run.room, &mut []);
        assert_eq!(again, Closed { taken: true, said: 0, status: closed }, "{state:?}");
    }
}

//! Every refusal once, through the crate's own face, and the room as it was after each.
use dawnstook::*;
use std::collections::BTreeSet;

const ROOM: usize = room_size(2, 2);

fn at(week: u16, time: u32) -> Gst {
    Gst::try_new(week, time).unwrap()
}

/// A store with all the words of E01, of the subframe that starts at week 1177, 175740, which ages by time.
fn filled() -> [u8; ROOM] {
    filled_with(|kind| kind)
}

/// The same with a byte of its own in the words of each type.
fn filled_with(byte: impl Fn(u8) -> u8) -> [u8; ROOM] {
    let mut room = [0; ROOM];
    let mut store = Store::new(&mut room, 2, 2, Ageing::Time).unwrap();
    for kind in 1..=5 {
        let mut word = [byte(kind); WORD_BYTES];
        word[0] = kind << 2;
        store.feed(&word, Svn::new(1).unwrap(), at(1177, 175_740), InavBand::E1B).unwrap();
    }
    room
}

fn tag() -> Tag {
    Tag { svn: Svn::new(1).unwrap(), adkd: Adkd::InavCed, cop: 1, mack: at(1177, 175_770) }
}

/// What a call on a filled store refuses with, and that it left the room as it was.
fn refused<T: std::fmt::Debug>(call: impl FnOnce(&mut Store) -> Result<T, Refusal>) -> Refusal {
    let mut room = filled();
    let why = call(&mut Store::resume(&mut room)).unwrap_err();
    assert_eq!(room, filled(), "{why:?}");
    why
}

fn given() -> Vec<u8> {
    let mut room = filled();
    Store::resume(&mut room).candidate(tag()).unwrap().to_vec()
}

/// What reading an orbit refuses with once a tag is taken.
fn unreadable(mut room: [u8; ROOM]) -> Refusal {
    let mut store = Store::resume(&mut room);
    let given = store.candidate(tag()).unwrap().to_vec();
    assert_eq!(store.tag(tag(), 40, NmaStatus::Operational, &given, true), Ok(1));
    assert!(store.get_ced_and_status(tag().svn).is_ok());
    store.get_orbit(tag().svn).unwrap_err()
}

/// What an asking refuses with once a tag is taken and 255 subframes have gone by, and that it left the room as it was.
fn unknown_age(ask: impl FnOnce(&Store) -> Result<(), Refusal>) -> Refusal {
    let mut room = filled();
    let mut store = Store::resume(&mut room);
    assert_eq!(store.tag(tag(), 40, NmaStatus::Operational, &given(), true), Ok(1));
    store.feed(&[0; WORD_BYTES], tag().svn, at(1177, 175_740 + 255 * SUBFRAME_SECONDS), InavBand::E1B).unwrap();
    let before = room;
    let why = ask(&Store::resume(&mut room)).unwrap_err();
    assert_eq!(room, before);
    why
}

/// What a part of an input and the end behind it come to, on a room without a store.
fn read(bytes: &[u8]) -> (Result<(), Refusal>, Result<(), Refusal>) {
    let (mut reader, mut room) = (Reader::new(), [0; ROOM]);
    (reader.part_with(&mut room, bytes, |_| ()), reader.end_with(&room, |_| ()))
}

/// A message of timing parameters of zeros in a tag of E02, with a week and a counter that may be wrong.
fn message(week: u16, counter: u8) -> Result<[u8; TIMING_MESSAGE_BYTES], Refusal> {
    let mut message = [0; TIMING_MESSAGE_BYTES];
    let heading = Heading {
        prnd: Some(Svn::new(1).unwrap()),
        prna: Svn::new(2).unwrap(),
        gst: at(week, 175_770),
        counter,
        status: NmaStatus::Operational,
    };
    build_message(&mut message, Form::Timing, heading, &[0; TIMING_BYTES])?;
    Ok(message)
}

/// What reading a message back refuses with, a byte of it being changed.
fn read_back(place: usize, byte: u8) -> Refusal {
    let mut message = message(1177, 3).unwrap();
    message[place] = byte;
    read_message(&mut [0; TIMING_BYTES], &message, Form::Timing).unwrap_err()
}

#[test]
fn every_refusal_once() {
    let operational = NmaStatus::Operational;
    let mut blank = [7; ROOM];
    let seen = [
        (1, Store::new(&mut blank, 0, 1, Ageing::Moves).unwrap_err()),
        (1, Store::new(&mut blank, MOST_ROWS + 1, 1, Ageing::Time).unwrap_err()),
        (1, Store::new(&mut blank, 1, MOST_SLOTS + 1, Ageing::Time).unwrap_err()),
        (1, Ageing::try_from(2).unwrap_err()),
        (2, Store::new(&mut blank[1..], 2, 2, Ageing::Moves).unwrap_err()),
        (2, Store::new(&mut [], 1, 1, Ageing::Time).unwrap_err()),
        (3, Store::resume(&mut blank).reset_authbits().unwrap_err()),
        (3, Store::resume(&mut []).get_ced_and_status(tag().svn).unwrap_err()),
        (3, Store::resume(&mut []).get_orbit(tag().svn).unwrap_err()),
        (3, Store::resume(&mut []).get_timing_numbers(tag().svn).unwrap_err()),
        (4, Svn::try_from(0).unwrap_err()),
        (4, Svn::try_from(MOST_SATELLITES + 1).unwrap_err()),
        (4, Svn::try_from(-1).unwrap_err()),
        (4, Svn::try_from(257).unwrap_err()),
        (4, read_back(0, 0)),
        (5, Tow::try_from(WEEK_SECONDS).unwrap_err()),
        (5, Gst::try_new(0, u32::MAX).unwrap_err()),
        (5, read_back(3, 0x9f)),
        (6, refused(|store| store.candidate(Tag { mack: at(1177, 175_771), ..tag() }).map(|_| ()))),
        (6, read_back(5, 0)),
        (7, at(0, 0).add_seconds(-1).unwrap_err()),
        (7, at(65_535, 604_799).add_seconds(1).unwrap_err()),
        (7, at(5, 0).add_subframes(MOST_SUBFRAMES + 1).unwrap_err()),
        (7, refused(|store| store.candidate(Tag { mack: at(0, 0), ..tag() }).map(|_| ()))),
        (7, message(MOST_MESSAGE_WEEK + 1, 3).unwrap_err()),
        (8, refused(|store| store.candidate(Tag { cop: MOST_COP + 1, ..tag() }).map(|_| ()))),
        (8, refused(|store| store.tag(tag(), 21, operational, &given(), true))),
        (8, message(1177, 0).unwrap_err()),
        (8, read_back(6, 0)),
        (9, InavBand::try_from(2).unwrap_err()),
        (9, Adkd::try_from(1).unwrap_err()),
        (9, NmaStatus::try_from(4).unwrap_err()),
        (9, Form::try_from(3).unwrap_err()),
        (10, refused(|store| store.candidate(Tag { mack: at(1177, 175_800), ..tag() }).map(|_| ()))),
        (11, refused(|store| store.tag(tag(), 40, operational, &[0; CED_BYTES], true))),
        (11, refused(|store| store.tag(tag(), 40, operational, &[], true))),
        (12, refused(|store| store.get_ced_and_status(tag().svn).map(|_| ()))),
        (12, refused(|store| store.get_timing_parameters(tag().svn).map(|_| ()))),
        (12, refused(|store| store.get_orbit(tag().svn))),
        (12, refused(|store| store.get_timing_numbers(tag().svn))),
        (13, read(&[3, 0, 3]).0.unwrap_err()),
        (14, read(&[3, 6, 2]).1.unwrap_err()),
        (14, read(&[3, 9, 2, 2]).1.unwrap_err()),
        (15, refused(|store| store.feed(&[0; WORD_BYTES], tag().svn, at(1177, 175_739), InavBand::E1B))),
        (15, refused(|store| store.feed(&[0; WORD_BYTES], tag().svn, at(1176, 604_799), InavBand::E5B))),
        (16, refused(|store| store.tag(Tag { cop: 0, ..tag() }, 40, operational, &given(), true))),
        (17, refused(|store| store.tag(tag(), 40, operational, &given(), false))),
        (18, refused(|store| store.tag(tag(), 40, NmaStatus::Reserved, &given(), true))),
        (18, refused(|store| store.tag(tag(), 40, NmaStatus::DontUse, &given(), true))),
        (21, unreadable(filled())),
        (22, unreadable(filled_with(|_| 0))),
        (24, unknown_age(|store| store.get_ced_and_status(tag().svn).map(|_| ()))),
        (24, unknown_age(|store| store.get_orbit(tag().svn).map(|_| ()))),
        (26, read_back(TIMING_MESSAGE_BYTES - 1, 1)),
    ];
    assert_eq!(blank, [7; ROOM]);
    for (number, why) in seen {
        assert_eq!(why.number(), number, "{why:?}");
    }
    let numbers = |all: &[Refusal]| all.iter().map(|why| why.number()).collect::<BTreeSet<_>>();
    assert_eq!(numbers(&seen.map(|(_, why)| why)), numbers(Refusal::ALL));
    assert_eq!(numbers(Refusal::ALL), (1..=18).chain(21..=22).chain([24, 26]).collect());
}

#[test]
fn what_is_not_refused() {
    let mut room = filled();
    let mut store = Store::resume(&mut room);
    for bits in TAG_BITS {
        assert_eq!(store.tag(tag(), bits, NmaStatus::Test, &given(), true), Ok(1));
    }
    let told = store.get_ced_and_status(tag().svn).unwrap();
    assert_eq!((told.data(), told.authbits(), told.gst()), (&given()[..], 20 + 24 + 28 + 32 + 40, at(1177, 175_740)));
    store.reset_authbits().unwrap();
    assert_eq!(store.get_ced_and_status(tag().svn), Err(Refusal::NotEnough));
}

#[test]
fn a_refusal_is_an_error() {
    let why: Box<dyn std::error::Error> = Box::new(Refusal::TooShort);
    assert_eq!(why.to_string(), "room too short for a fresh store");
    let texts: BTreeSet<String> = Refusal::ALL.iter().map(|why| why.to_string()).collect();
    assert_eq!(texts.len(), Refusal::ALL.len());
}

#[test]
fn times_and_satellites() {
    assert_eq!(at(1, 0).add_seconds(-30), Ok(at(0, 604_770)));
    assert_eq!(at(5, 0).add_seconds(-604_799), Ok(at(4, 1)));
    assert_eq!(at(1177, 175_767).is_subframe(), Ok(false));
    assert_eq!(at(1177, 175_740).is_subframe(), Ok(true));
    assert_eq!(at(1, 0).subframes_difference(at(0, 604_799)), Ok(1));
    assert_eq!((u16::from(at(7, 8).wn()), u32::from(at(7, 8).tow())), (7, 8));
    assert_eq!(Gst::new(Wn::from(7), Tow::new(8).unwrap()), at(7, 8));
    assert_eq!(Svn::iter().count(), usize::from(MOST_SATELLITES));
    assert_eq!(Svn::iter().map(u8::from).collect::<Vec<_>>(), (1..=MOST_SATELLITES).collect::<Vec<_>>());
    assert_eq!(Svn::new(1).unwrap().to_string(), "E01");
    assert_eq!((i8::from(Svn::new(36).unwrap()), u64::from(Svn::new(36).unwrap())), (36, 36));
}

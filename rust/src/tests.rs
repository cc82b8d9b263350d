//! What is seen only from within: the archive's answers to numbers that the types of this crate do not let through.
use crate::*;

const WEEK: u16 = 1177;
const START: u32 = 175_740;

#[test]
fn room_size_is_the_archives() {
    for d in 0..=u8::MAX {
        for n in 0..=u8::MAX {
            assert_eq!(room_size(d, n), unsafe { sys::dawnstook_room_size(d, n) }, "{d} {n}");
        }
    }
    assert_eq!(room_size(13, 36), 46_912);
    assert_eq!(MOST_ROOM, 57_736);
}

#[test]
fn only_zero_is_success() {
    for number in 0..=u8::MAX {
        match Refusal::check(number) {
            Ok(()) => assert_eq!(number, 0),
            Err(why) => {
                assert_eq!(why.number(), number);
                assert_eq!(why == Refusal::Unlisted(number), !Refusal::ALL.contains(&why));
            }
        }
    }
    assert_eq!(Refusal::check(19), Err(Refusal::Unlisted(19)));
    assert_eq!(Refusal::Unlisted(19).to_string(), "answer 19 is not one of version 0.7.0");
}

type OrbitNumbers = (u8, u16, u16, u32, (Word1, Word2, Word3, Word4, Word5), [u64; 23]);
type ParameterNumbers = (u8, u16, u16, u32, (Word6, Word10), [u64; 4]);

fn bits<T, const N: usize>(scaled: T) -> [u64; N] {
    assert_eq!(size_of::<T>(), 8 * N);
    // SAFETY: T is `Scaled` or `ScaledTiming`, N doubles one behind the other.
    unsafe { core::mem::transmute_copy(&scaled) }
}

/// All that reading an orbit hands back, the doubles as their bits.
fn orbit_numbers(room: &[u8], sat: u8) -> OrbitNumbers {
    let read = unsafe { sys::dawnstook_get_orbit(room.as_ptr(), room.len(), sat) };
    let words = (read.word1, read.word2, read.word3, read.word4, read.word5);
    (read.number, read.authbits, read.week, read.time, words, bits(read.scaled))
}

/// The same of timing parameters.
fn parameter_numbers(room: &[u8], sat: u8) -> ParameterNumbers {
    let read = unsafe { sys::dawnstook_get_timing_numbers(room.as_ptr(), room.len(), sat) };
    (read.number, read.authbits, read.week, read.time, (read.word6, read.word10), bits(read.scaled))
}

/// Word 4 names a satellite; all other bits of all words are those of 0x5a.
fn word(kind: u8, named: u8) -> InavWord {
    let mut word = [0x5a; WORD_BYTES];
    word[0] = kind << 2;
    if kind == 4 {
        word[2] = named << 2;
    }
    word
}

/// Beside a refusal every number of the archive's is 0, a double plus zero; beside 0 the crate hands out what the archive does.
#[test]
fn numbers_are_the_archives() {
    let mut room = [0; room_size(1, 1)];
    let (svn, start) = (Svn::new(11).unwrap(), Gst::try_new(WEEK, START).unwrap());
    let feed = |room: &mut [u8], word| Store::resume(room).feed(&word, svn, start, InavBand::E1B).unwrap();
    let tag = |room: &mut [u8], adkd| {
        let (mut store, tag) = (Store::resume(room), Tag { svn, adkd, cop: 1, mack: start.add_subframes(1).unwrap() });
        let given = store.candidate(tag).unwrap().to_vec();
        assert_eq!(store.tag(tag, 40, NmaStatus::Operational, &given, true), Ok(1));
    };
    // SAFETY: all of it is whole numbers, which may be of zero bytes.
    let (bare, bare_parameters): (OrbitNumbers, ParameterNumbers) = unsafe { core::mem::zeroed() };
    let refused = |room: &[u8], sat, number| {
        assert_eq!(orbit_numbers(room, sat), (number, bare.1, bare.2, bare.3, bare.4, bare.5));
    };
    let refused_both = |room: &[u8], sat, number| {
        let none = bare_parameters;
        assert_eq!(parameter_numbers(room, sat), (number, none.1, none.2, none.3, none.4, none.5));
        refused(room, sat, number);
    };
    refused_both(&[], 11, 3);
    refused_both(&room, 0, 3);
    Store::new(&mut room, 1, 1, Ageing::Moves).unwrap();
    for kind in [1, 2, 3, 4, 5, 6, 10] {
        feed(&mut room, word(kind, 11));
    }
    for sat in (0..=u8::MAX).filter(|sat| Svn::try_from(*sat).is_err()) {
        refused_both(&room, sat, 4);
    }
    refused_both(&room, 11, 12);
    refused_both(&room, 12, 12);

    tag(&mut room, Adkd::InavCed);
    tag(&mut room, Adkd::InavTiming);
    let (read, read_parameters) = (orbit_numbers(&room, 11), parameter_numbers(&room, 11));
    let orbit = Store::resume(&mut room).get_orbit(svn).unwrap();
    let words = (orbit.word1, orbit.word2, orbit.word3, orbit.word4, orbit.word5);
    assert_eq!((orbit.authbits, orbit.gst), (40, start));
    assert_eq!(read, (0, 40, WEEK, START, words, bits(orbit.scaled)));
    let numbers = Store::resume(&mut room).get_timing_numbers(svn).unwrap();
    assert_eq!((numbers.authbits, numbers.gst), (40, start));
    assert_eq!(read_parameters, (0, 40, WEEK, START, (numbers.word6, numbers.word10), bits(numbers.scaled)));

    feed(&mut room, word(4, 12));
    refused(&room, 11, 12);
    tag(&mut room, Adkd::InavCed);
    refused(&room, 11, 22);
    feed(&mut room, [0x0a; WORD_BYTES]);
    refused(&room, 11, 12);
    tag(&mut room, Adkd::InavCed);
    refused(&room, 11, 21);
    assert_eq!(parameter_numbers(&room, 11), read_parameters);
}

/// What building a message is given: numbers that may be wrong, data, and the bytes of the buffer.
#[derive(Clone, Debug)]
struct Asked {
    prna: u8,
    prnd: u8,
    week: u16,
    time: u32,
    form: u8,
    status: u8,
    counter: u32,
    given: Vec<u8>,
    room: usize,
}

const FORMS: [Form; 3] = [Form::Ced, Form::Tag0, Form::Timing];
const LENT: u8 = 0xa5;

/// A message of week 1177, time 175770, with a buffer that is longer by three bytes.
fn asked(form: Form, byte: u8) -> Asked {
    let (given, room) = (vec![byte; form.data_bytes()], form.message_bytes() + 3);
    Asked { prna: 2, prnd: 1, week: WEEK, time: START + 30, form: form as u8, status: 2, counter: 3, given, room }
}

impl Asked {
    /// The number, the bytes, and the whole buffer afterwards.
    fn build(&self) -> (u8, usize, Vec<u8>) {
        let mut out = vec![LENT; self.room];
        let Asked { prna, prnd, week, time, form, status, counter, ref given, room } = *self;
        let built = unsafe {
            let (start, data) = (out.as_mut_ptr(), given.as_ptr());
            sys::dawnstook_build_message(start, room, data, given.len(), prna, prnd, week, time, form, status, counter)
        };
        (built.number, built.bytes, out)
    }

    /// The message bit by bit, whatever the fields are, and what stands in its last bits.
    fn packed(&self, behind: u32) -> Vec<u8> {
        let mut bits = Vec::new();
        let mut put = |width: u32, value: u32| bits.extend((0..width).rev().map(|i| (value >> i & 1) as u8));
        if self.form != Form::Tag0 as u8 {
            put(8, self.prnd.into());
        }
        put(8, self.prna.into());
        put(12, self.week.into());
        put(20, self.time);
        put(8, self.counter);
        put(2, self.status.into());
        let data = if self.form == Form::Timing as u8 { TIMING_BITS } else { CED_BITS };
        for i in 0..data {
            put(1, (self.given[i / 8] >> (7 - i % 8)).into());
        }
        let left = (8 - bits.len() % 8) % 8;
        bits.extend((0..left).rev().map(|i| (behind >> i & 1) as u8));
        bits.chunks(8).map(|byte| byte.iter().fold(0, |byte, bit| byte << 1 | bit)).collect()
    }

    /// The same numbers with another wrong one.
    fn with(&self, wrong: impl Fn(&mut Asked)) -> Asked {
        let mut asked = self.clone();
        wrong(&mut asked);
        asked
    }
}

/// All that reading back hands out, and the whole buffer afterwards.
fn read_back(message: &[u8], form: u8, room: usize) -> ([u32; 7], Vec<u8>) {
    let mut out = vec![LENT; room];
    let read = unsafe { sys::dawnstook_read_message(out.as_mut_ptr(), room, message.as_ptr(), message.len(), form) };
    let fields = [read.number, read.prnd, read.prna, read.status].map(u32::from);
    ([fields[0], fields[1], fields[2], fields[3], read.week.into(), read.time, read.counter], out)
}

/// Behind the message, and behind the data that is read back, the buffer stays.
#[test]
fn messages_are_bits_in_their_order() {
    let lent = [LENT; 3];
    for form in FORMS {
        for (i, byte) in (0..=u8::MAX).enumerate() {
            let mut asked = asked(form, byte);
            (asked.prna, asked.prnd, asked.status) = (1 + byte % 36, 36 - byte % 36, byte % 4);
            (asked.week, asked.time, asked.counter) = (16 * u16::from(byte) + 15, 604_770 - 2340 * u32::from(byte), u32::from(byte).max(1));
            asked.given[i % form.data_bytes()] ^= 0x5a;
            let message = asked.packed(0);
            assert_eq!(asked.build(), (0, form.message_bytes(), [&message[..], &lent].concat()));
            let prnd = if form == Form::Tag0 { 0 } else { asked.prnd };
            let fields = [0, prnd.into(), asked.prna.into(), asked.status.into(), asked.week.into(), asked.time, asked.counter];
            *asked.given.last_mut().unwrap() &= 0xf8;
            assert_eq!(read_back(&message, asked.form, form.data_bytes() + 3), (fields, [&asked.given[..], &lent].concat()));
        }
    }
}

type Wrong = (u8, fn(&mut Asked));

/// Of two wrong arguments the one that is tested first is answered, nothing comes beside it, and the buffer stays.
#[test]
fn building_refuses_in_order() {
    let wrong: [Wrong; 21] = [
        (4, |asked| asked.prna = 0),
        (4, |asked| asked.prna = MOST_SATELLITES + 1),
        (4, |asked| asked.prna = 255),
        (4, |asked| asked.prnd = 0),
        (4, |asked| asked.prnd = MOST_SATELLITES + 1),
        (4, |asked| asked.prnd = 255),
        (5, |asked| asked.time = WEEK_SECONDS),
        (5, |asked| asked.time = u32::MAX),
        (6, |asked| asked.time = START + 1),
        (6, |asked| asked.time = WEEK_SECONDS - 1),
        (9, |asked| asked.form = 3),
        (9, |asked| asked.form = 255),
        (9, |asked| asked.status = 4),
        (9, |asked| asked.status = 255),
        (7, |asked| asked.week = MOST_MESSAGE_WEEK + 1),
        (7, |asked| asked.week = u16::MAX),
        (8, |asked| asked.counter = 0),
        (8, |asked| asked.counter = u32::from(MOST_COUNTER) + 1),
        (8, |asked| asked.given.push(0)),
        (8, |asked| asked.given.clear()),
        (8, |asked| asked.room = 0),
    ];
    for form in FORMS {
        let right = asked(form, 0xff);
        for (i, (number, first)) in wrong.iter().enumerate() {
            for (_, second) in &wrong[i..] {
                let asked = right.with(second).with(first);
                assert_eq!(asked.build(), (*number, 0, vec![LENT; asked.room]), "{asked:?}");
            }
        }
        for bytes in 0..=2 * CED_BYTES {
            let asked = right.with(|asked| asked.given.resize(bytes, 0));
            assert_eq!(asked.build().0, if bytes == form.data_bytes() { 0 } else { 8 }, "{asked:?}");
        }
        for room in 0..=2 * CED_MESSAGE_BYTES {
            let asked = right.with(|asked| asked.room = room);
            assert_eq!(asked.build().0, if room < form.message_bytes() { 8 } else { 0 }, "{asked:?}");
        }
    }
}

/// The same of reading back: the form and the lengths first, then what stands in the message.
#[test]
fn reading_back_refuses_in_order() {
    let wrong: [Wrong; 12] = [
        (4, |asked| asked.prnd = 0),
        (4, |asked| asked.prnd = MOST_SATELLITES + 1),
        (4, |asked| asked.prnd = 255),
        (4, |asked| asked.prna = 0),
        (4, |asked| asked.prna = MOST_SATELLITES + 1),
        (4, |asked| asked.prna = 255),
        (5, |asked| asked.time = WEEK_SECONDS),
        (5, |asked| asked.time = (1 << 20) - 1),
        (6, |asked| asked.time = START + 1),
        (6, |asked| asked.time = WEEK_SECONDS - 1),
        (8, |asked| asked.counter = 0),
        (26, |_| ()),
    ];
    let refused = |message: &[u8], form, room, number: u8| {
        assert_eq!(read_back(message, form, room), ([number.into(), 0, 0, 0, 0, 0, 0], vec![LENT; room]), "{form} {message:?}");
    };
    for form in FORMS {
        let (right, room) = (asked(form, 0xff), form.data_bytes());
        // tag 0 does not carry the satellite of the data
        let wrong = if form == Form::Tag0 { &wrong[3..] } else { &wrong };
        for (i, (number, first)) in wrong.iter().enumerate() {
            for (_, second) in &wrong[i..] {
                let mut message = right.with(second).with(first).packed(1);
                refused(&message, form as u8, room, *number);
                refused(&message, form as u8, room - 1, 8);
                refused(&message, form as u8, 0, 8);
                refused(&message, 3, room, 9);
                refused(&message, 255, 0, 9);
                message.push(0);
                for bytes in (0..=message.len()).filter(|bytes| *bytes != form.message_bytes()) {
                    refused(&message[..bytes], form as u8, room, 8);
                }
            }
        }
    }
}

/// The constructors refuse with the number that the archive answers to the same number.
#[test]
fn the_types_refuse_as_the_archive_does() {
    let mut room = [0; room_size(1, 1)];
    let word: InavWord = [0; WORD_BYTES];
    Store::new(&mut room, 1, 1, Ageing::Moves).unwrap();
    let before = room;
    let mut feed = |sat, time, word: &[u8], band| unsafe {
        sys::dawnstook_feed(room.as_mut_ptr(), room.len(), word.as_ptr(), word.len(), sat, WEEK, time, band)
    };
    for sat in (0..=u8::MAX).filter(|sat| Svn::try_from(*sat).is_err()) {
        assert_eq!(Err(Refusal::NoSatellite), Refusal::check(feed(sat, START, &word, 0)));
        assert_eq!(Svn::try_from(sat), Err(Refusal::NoSatellite));
    }
    for time in [WEEK_SECONDS, u32::MAX] {
        assert_eq!(Refusal::check(feed(1, time, &word, 0)), Err(Refusal::TowTooLarge));
        assert_eq!(Tow::try_from(time), Err(Refusal::TowTooLarge));
    }
    for band in (0..=u8::MAX).filter(|band| InavBand::try_from(*band).is_err()) {
        assert_eq!(Refusal::check(feed(1, START, &word, band)), Err(Refusal::UnknownCode));
    }
    assert_eq!(Refusal::check(feed(1, START, &word[1..], 0)), Err(Refusal::NotAllowed));
    assert_eq!(room, before);
    for kind in 0..=u8::MAX {
        let shown = unsafe { sys::dawnstook_candidate(room.as_ptr(), room.len(), 1, kind, 1, WEEK, START) };
        assert_eq!(Refusal::check(shown.number) == Err(Refusal::UnknownCode), Adkd::try_from(kind).is_err(), "{kind}");
    }
    for status in 0..=u8::MAX {
        let taken = unsafe {
            let room = (room.as_mut_ptr(), room.len());
            sys::dawnstook_tag(room.0, room.1, 1, 0, 1, 40, status, WEEK, START, word.as_ptr(), word.len(), true)
        };
        assert_eq!(Refusal::check(taken.number) == Err(Refusal::UnknownCode), NmaStatus::try_from(status).is_err(), "{status}");
    }
    for time in [0, WEEK_SECONDS - 1, WEEK_SECONDS, u32::MAX] {
        let moment = unsafe { sys::dawnstook_gst_subframe(WEEK, time) };
        assert_eq!(Refusal::check(moment.number).err(), Tow::try_from(time).err());
    }
    for rule in 0..=u8::MAX {
        let before = room;
        let fresh = unsafe { sys::dawnstook_fresh(room.as_mut_ptr(), room.len(), 1, 1, rule) };
        assert_eq!(Refusal::check(fresh).err(), Ageing::try_from(rule).err(), "{rule}");
        assert_eq!(fresh == 1, rule > 1);
        assert!(fresh == 0 || room == before, "{rule}");
    }
    // all that the types let through, the archive takes
    for svn in Svn::iter() {
        let mut room = [0; room_size(1, 1)];
        let mut store = Store::new(&mut room, 1, 1, Ageing::Moves).unwrap();
        store.feed(&word, svn, Gst::try_new(WEEK, WEEK_SECONDS - 1).unwrap(), InavBand::E5B).unwrap();
    }
}

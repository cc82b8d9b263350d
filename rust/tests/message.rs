//! The message under a tag: known messages, that building and reading back are each other's inverse, that nothing else of a buffer is
//! written, what is refused, and the way from a candidate to its tag.
use dawnstook::*;

const FORMS: [Form; 3] = [Form::Ced, Form::Tag0, Form::Timing];
const LENT: u8 = 0xa5;

fn svn(number: u8) -> Svn {
    Svn::new(number).unwrap()
}

fn at(week: u16, time: u32) -> Gst {
    Gst::try_new(week, time).unwrap()
}

/// The data of E01, in a tag of E02.
fn heading() -> Heading {
    Heading { prnd: Some(svn(1)), prna: svn(2), gst: at(1177, 175_770), counter: 3, status: NmaStatus::Operational }
}

/// The same as it is read back.
fn carried(form: Form, heading: Heading) -> Heading {
    Heading { prnd: heading.prnd.filter(|_| form != Form::Tag0), ..heading }
}

fn hex(text: &str) -> Vec<u8> {
    (0..text.len()).step_by(2).map(|i| u8::from_str_radix(&text[i..i + 2], 16).unwrap()).collect()
}

/// A message in a buffer with bytes behind it, which stay; a refusal leaves all of it.
fn build(form: Form, heading: Heading, data: &[u8]) -> Result<Vec<u8>, Refusal> {
    let mut out = [LENT; 2 * CED_MESSAGE_BYTES];
    let message = build_message(&mut out, form, heading, data).map(<[u8]>::to_vec);
    let written = message.as_ref().map_or(0, Vec::len);
    assert_eq!(&out[..written], message.as_deref().unwrap_or_default());
    assert!(out[written..].iter().all(|byte| *byte == LENT));
    message
}

/// The same of reading back.
fn read(message: &[u8], form: Form) -> Result<(Heading, Vec<u8>), Refusal> {
    let mut out = [LENT; 2 * CED_BYTES];
    let read = read_message(&mut out, message, form).map(|(heading, data)| (heading, data.to_vec()));
    let written = read.as_ref().map_or(0, |(_, data)| data.len());
    assert_eq!(&out[..written], read.as_ref().map_or(&[][..], |(_, data)| data));
    assert!(out[written..].iter().all(|byte| *byte == LENT));
    read
}

#[test]
fn known_messages() {
    let mut low = [0; CED_BYTES];
    low[CED_BYTES - 1] = 0x07;
    let known = [
        (Form::Timing, &[0xff; TIMING_BYTES][..], format!("01024992ae9a03bf{}fe", "ff".repeat(16))),
        (Form::Tag0, &[0xff; CED_BYTES], format!("024992ae9a03bf{}fe", "ff".repeat(67))),
        // bits past the data's do not matter
        (Form::Ced, &low, format!("01024992ae9a0380{}", "00".repeat(68))),
    ];
    for (form, data, message) in known {
        let message = hex(&message);
        assert_eq!(message.len(), form.message_bytes());
        assert_eq!(build(form, heading(), data).as_ref(), Ok(&message));
        let mut clear = data.to_vec();
        clear[form.data_bytes() - 1] &= 0xf8;
        assert_eq!(read(&message, form), Ok((carried(form, heading()), clear)));
    }
}

#[test]
fn forms() {
    assert_eq!(FORMS.map(Form::message_bytes), [76, 75, 25]);
    assert_eq!(FORMS.map(Form::data_bytes), [69, 69, 18]);
    assert_eq!([Adkd::InavCed, Adkd::SlowMac, Adkd::InavTiming].map(Form::from), [Form::Ced, Form::Ced, Form::Timing]);
    for code in 0..=u8::MAX {
        assert_eq!(Form::try_from(code), FORMS.get(usize::from(code)).copied().ok_or(Refusal::UnknownCode));
    }
}

/// What is built is read back, and what is read back is built again.
#[test]
fn there_and_back() {
    let mut seed = 1u64;
    let mut next = |most: u64| {
        seed = seed.wrapping_mul(6_364_136_223_846_793_005).wrapping_add(1_442_695_040_888_963_407);
        (seed >> 33) % (most + 1)
    };
    for i in 0..2000 {
        let form = FORMS[i % 3];
        let mut data: Vec<u8> = (0..form.data_bytes()).map(|_| next(255) as u8).collect();
        let heading = Heading {
            prnd: Some(svn(1 + next(35) as u8)),
            prna: svn(1 + next(35) as u8),
            gst: at(next(MOST_MESSAGE_WEEK.into()) as u16, 30 * next(20_159) as u32),
            counter: 1 + next(254) as u8,
            status: NmaStatus::try_from(next(3) as u8).unwrap(),
        };
        let message = build(form, heading, &data).unwrap();
        data[form.data_bytes() - 1] &= 0xf8;
        let (same, same_data) = read(&message, form).unwrap();
        assert_eq!((same, &same_data), (carried(form, heading), &data));
        assert_eq!(build(form, same, &same_data), Ok(message));
    }
}

/// Tag 0 carries no satellite of the data: any makes the same message, and none does.
#[test]
fn the_satellite_of_tag_0() {
    let data = [0x5a; CED_BYTES];
    let message = build(Form::Tag0, Heading { prnd: None, ..heading() }, &data);
    for prnd in Svn::iter().map(Some) {
        assert_eq!(build(Form::Tag0, Heading { prnd, ..heading() }, &data), message);
    }
    for form in [Form::Ced, Form::Timing] {
        assert_eq!(build(form, Heading { prnd: None, ..heading() }, &data[..form.data_bytes()]), Err(Refusal::NoSatellite));
    }
}

/// Each refusal, and of two the one that comes first.
#[test]
fn refusals() {
    for form in FORMS {
        let (right, data) = (heading(), vec![0xff; form.data_bytes()]);
        let early = Heading { gst: at(MOST_MESSAGE_WEEK + 1, 175_771), ..right };
        let late = Heading { gst: at(MOST_MESSAGE_WEEK + 1, 175_770), counter: 0, ..right };
        let (nothing, long) = (Heading { counter: 0, ..right }, [&data[..], &[0]].concat());
        assert_eq!(build(form, early, &data), Err(Refusal::NotAStart));
        assert_eq!(build(form, late, &data), Err(Refusal::TimeArithmetic));
        assert_eq!(build(form, nothing, &data), Err(Refusal::NotAllowed));
        assert_eq!(build(form, right, &data[1..]), Err(Refusal::NotAllowed));
        assert_eq!(build(form, right, &long), Err(Refusal::NotAllowed));
        assert_eq!(build(form, right, &[]), Err(Refusal::NotAllowed));
        assert_eq!(build_message(&mut vec![0; form.message_bytes() - 1], form, right, &data), Err(Refusal::NotAllowed));
        assert_eq!(build_message(&mut [], form, right, &data), Err(Refusal::NotAllowed));

        let message = build(form, right, &data).unwrap();
        let with = |place: usize, byte: u8| {
            let mut message = message.clone();
            // places are those of a message that has the satellite of the data
            message[place - usize::from(form == Form::Tag0)] = byte;
            read(&message, form).map(|(heading, _)| heading)
        };
        for byte in [0, MOST_SATELLITES + 1, 255] {
            assert_eq!(with(1, byte), Err(Refusal::NoSatellite));
            if form != Form::Tag0 {
                assert_eq!(with(0, byte), Err(Refusal::NoSatellite));
            }
        }
        assert_eq!(with(3, 0x9f), Err(Refusal::TowTooLarge));
        assert_eq!(with(5, 0x9b), Err(Refusal::NotAStart));
        assert_eq!(with(6, 0), Err(Refusal::NotAllowed));
        assert_eq!(with(6, 255), Ok(Heading { counter: 255, ..carried(form, right) }));
        assert_eq!(with(7, 0x3f), Ok(Heading { status: NmaStatus::Reserved, ..carried(form, right) }));
        let last = form.message_bytes() - 1 + usize::from(form == Form::Tag0);
        assert_eq!(with(last, 0xff), Err(Refusal::PaddingSet));
        assert_eq!(with(last, 0), Ok(carried(form, right)));
        assert_eq!(read(&message[1..], form), Err(Refusal::NotAllowed));
        assert_eq!(read(&[], form), Err(Refusal::NotAllowed));
        assert_eq!(read_message(&mut vec![0; form.data_bytes() - 1], &message, form), Err(Refusal::NotAllowed));
        assert_eq!(read_message(&mut [], &message, form), Err(Refusal::NotAllowed));
        for other in FORMS.into_iter().filter(|other| *other != form) {
            assert_eq!(read(&message, other), Err(Refusal::NotAllowed));
        }
    }
}

/// The candidate's data, its message, and the tag with the data of that message.
#[test]
fn from_a_candidate_to_its_tag() {
    let mut room = [0; room_size(2, 2)];
    let mut store = Store::new(&mut room, 2, 2, Ageing::Time).unwrap();
    for kind in [1, 2, 3, 4, 5, 6, 10] {
        let mut word = [0x50 | kind; WORD_BYTES];
        word[0] = kind << 2;
        store.feed(&word, svn(1), at(1177, 175_740), InavBand::E1B).unwrap();
    }
    for (form, adkd) in
        [(Form::Ced, Adkd::InavCed), (Form::Tag0, Adkd::InavCed), (Form::Timing, Adkd::InavTiming), (Form::Ced, Adkd::SlowMac)]
    {
        let tag = Tag { svn: svn(1), adkd, cop: 1, mack: heading().gst };
        let mut out = [0; CED_MESSAGE_BYTES];
        let message = build_message(&mut out, form, heading(), store.candidate(tag).unwrap()).unwrap();
        let mut out = [0; CED_BYTES];
        let (read, data) = read_message(&mut out, message, form).unwrap();
        assert_eq!((read, data), (carried(form, heading()), store.candidate(tag).unwrap()));
        assert_eq!(store.tag(Tag { mack: read.gst, ..tag }, 40, read.status, data, true), Ok(1));
    }
    assert_eq!(store.get_ced_and_status(svn(1)).unwrap().authbits(), 3 * 40);
    assert_eq!(store.get_timing_parameters(svn(1)).unwrap().authbits(), 40);
}

//! Authenticated data read as numbers: every field and its double, that they are those of the asking's data, and what is refused.
use dawnstook::*;

const ROOM: usize = room_size(2, 2);
const SATELLITE: u8 = 11;

/// The fields of the words, one behind the other: u, or s in two's complement, the bits, and the k of those that are scaled.
const CED: [(u8, &str); 5] = [
    (1, "u10 u14 s32/31 u32/33 u32/19"),
    (2, "u10 s32/31 s32/31 s32/31 s14/43"),
    (3, "u10 s24/43 s16/43 s16/29 s16/29 s16/5 s16/5 u8"),
    (4, "u10 u6 s16/29 s16/29 u14 s31/34 s21/46 s6/59"),
    (5, "u11/2 s11/8 s14/15 u1 u1 u1 u1 u1 s10/32 s10/32 u2 u2 u1 u1"),
];
const TIMING: [(u8, &str); 2] = [(6, "s32/30 s24/50 s8 u8 u8 u8 u3 s8"), (10, "s16/35 s12/51 u8 u6")];

/// An orbit with one issue, 42, and the satellite E11, word by word.
const ORBIT: [&[i64]; 5] = [
    &[42, 2920, -1_234_567_890, 1_288_490, 2_852_441_293],
    &[42, 1_395_864_371, 666_900_512, -429_496_730, -723],
    &[42, -15_397, 8379, -2684, 4295, 4810, -3521, 107],
    &[42, 11, 31, -17, 2920, -7_215_545, -493, 0],
    &[240, 26, 328, 0, 0, 1, 0, 0, -13, -15, 0, 1, 0, 1],
];

const PARAMETERS: [&[i64]; 2] = [&[2, -4, 18, 48, 153, 137, 7, 18], &[-9, -2, 48, 25]];

fn at(week: u16, time: u32) -> Gst {
    Gst::try_new(week, time).unwrap()
}

fn start() -> Gst {
    at(1177, 175_740)
}

fn svn() -> Svn {
    Svn::new(SATELLITE).unwrap()
}

/// Of each field its bits, whether it is in two's complement, and its k; 0 where it is not scaled.
fn fields(text: &str) -> Vec<(usize, bool, u64)> {
    let field = |text: &str| {
        let (bits, k) = text[1..].split_once('/').unwrap_or((&text[1..], "0"));
        (bits.parse().unwrap(), text.starts_with('s'), k.parse().unwrap())
    };
    text.split(' ').map(field).collect()
}

/// A word of a type, its fields' values one behind the other from where they begin.
fn word(kind: u8, text: &str, values: &[i64]) -> InavWord {
    let (mut word, mut place) = ([0; WORD_BYTES], if kind == 10 { 86 } else { 6 });
    word[0] = kind << 2;
    assert_eq!(fields(text).len(), values.len());
    for ((bits, ..), value) in fields(text).into_iter().zip(values) {
        for i in (0..bits).rev() {
            word[place / 8] |= ((value >> i & 1) as u8) << (7 - place % 8);
            place += 1;
        }
    }
    word
}

fn words(table: &[(u8, &str)], values: &[&[i64]]) -> Vec<InavWord> {
    table.iter().zip(values).map(|((kind, text), values)| word(*kind, text, values)).collect()
}

/// A room with a store of these words of E11.
fn stored(words: &[InavWord]) -> [u8; ROOM] {
    let mut room = [0; ROOM];
    let mut store = Store::new(&mut room, 2, 2, Ageing::Moves).unwrap();
    for word in words {
        store.feed(word, svn(), start(), InavBand::E1B).unwrap();
    }
    room
}

/// A tag of 40 bits over the data that came in the subframe `gst`.
fn authenticate(room: &mut [u8], adkd: Adkd, gst: Gst) {
    let tag = Tag { svn: svn(), adkd, cop: 1, mack: gst.add_subframes(1).unwrap() };
    let mut store = Store::resume(room);
    let data = store.candidate(tag).unwrap().to_vec();
    assert!(store.tag(tag, 40, NmaStatus::Operational, &data, true).unwrap() > 0);
}

/// The same room with a tag taken.
fn tagged(words: &[InavWord], adkd: Adkd) -> [u8; ROOM] {
    let mut room = stored(words);
    authenticate(&mut room, adkd, start());
    room
}

/// What reading an orbit comes to, that no byte of the room changed, and that the asking comes to the same beside 21 and 22.
fn read(room: &[u8; ROOM]) -> Result<Orbit, Refusal> {
    let mut lent = *room;
    let store = Store::resume(&mut lent);
    let (orbit, told) = (store.get_orbit(svn()), store.get_ced_and_status(svn()));
    match orbit {
        Ok(orbit) => assert_eq!(told.map(|told| (told.authbits(), told.gst())), Ok((orbit.authbits, orbit.gst))),
        Err(Refusal::IssuesDiffer | Refusal::OtherSatellite) => assert!(told.is_ok()),
        Err(why) => assert_eq!(told, Err(why)),
    }
    assert_eq!(lent, *room);
    orbit
}

fn read_timing(room: &[u8; ROOM]) -> Result<TimingNumbers, Refusal> {
    let mut lent = *room;
    let store = Store::resume(&mut lent);
    let (numbers, told) = (store.get_timing_numbers(svn()), store.get_timing_parameters(svn()));
    assert_eq!(numbers.map(|numbers| (numbers.authbits, numbers.gst)), told.map(|told| (told.authbits(), told.gst())));
    assert_eq!(lent, *room);
    numbers
}

/// The whole numbers in the order of the table, and the doubles.
fn all(orbit: &Orbit) -> (Vec<i64>, Vec<f64>) {
    let Orbit { word1: a, word2: b, word3: c, word4: d, word5: e, scaled: s, .. } = *orbit;
    let mut whole: Vec<i64> = vec![a.iodnav.into(), a.t0e.into(), a.m0.into(), a.e.into(), a.root_a.into()];
    whole.extend([b.iodnav.into(), i64::from(b.omega0), b.i0.into(), b.omega.into(), b.i_dot.into()]);
    whole.extend([c.iodnav.into(), i64::from(c.omega_dot), c.delta_n.into(), c.cuc.into(), c.cus.into()]);
    whole.extend([i64::from(c.crc), c.crs.into(), c.sisa.into()]);
    whole.extend([i64::from(d.iodnav), d.svid.into(), d.cic.into(), d.cis.into(), d.t0c.into()]);
    whole.extend([i64::from(d.af0), d.af1.into(), d.af2.into()]);
    whole.extend([i64::from(e.ai0), e.ai1.into(), e.ai2.into()]);
    whole.extend([e.region1, e.region2, e.region3, e.region4, e.region5].map(i64::from));
    whole.extend([e.bgd_e1_e5a, e.bgd_e1_e5b].map(i64::from));
    whole.extend([e.e5b_health, e.e1b_health, e.e5b_validity, e.e1b_validity].map(i64::from));
    let mut doubles = vec![s.m0, s.e, s.root_a, s.omega0, s.i0, s.omega, s.i_dot];
    doubles.extend([s.omega_dot, s.delta_n, s.cuc, s.cus, s.crc, s.crs, s.cic, s.cis, s.af0, s.af1, s.af2]);
    doubles.extend([s.ai0, s.ai1, s.ai2, s.bgd_e1_e5a, s.bgd_e1_e5b]);
    (whole, doubles)
}

fn all_timing(numbers: &TimingNumbers) -> (Vec<i64>, Vec<f64>) {
    let TimingNumbers { word6: a, word10: b, scaled: s, .. } = *numbers;
    let mut whole: Vec<i64> = vec![a.a0.into(), a.a1.into(), a.dt_ls.into(), a.t0t.into(), a.wn0t.into()];
    whole.extend([i64::from(a.wn_lsf), a.dn.into(), a.dt_lsf.into()]);
    whole.extend([i64::from(b.a0g), b.a1g.into(), b.t0g.into(), b.wn0g.into()]);
    (whole, vec![s.a0, s.a1, s.a0g, s.a1g])
}

/// The whole numbers of data by the table, and the bits of the doubles.
fn expected(table: &[(u8, &str)], data: &[u8]) -> (Vec<i64>, Vec<u64>) {
    let (mut place, mut whole, mut doubles) = (0, Vec::new(), Vec::new());
    for (bits, signed, k) in table.iter().flat_map(|(_, text)| fields(text)) {
        let mut value = 0;
        for _ in 0..bits {
            value = value * 2 + i64::from(data[place / 8] >> (7 - place % 8) & 1);
            place += 1;
        }
        if signed && value >> (bits - 1) == 1 {
            value -= 1 << bits;
        }
        whole.push(value);
        if k > 0 {
            doubles.push((value as f64 * f64::from_bits((1023 - k) << 52)).to_bits());
        }
    }
    (whole, doubles)
}

fn bits(doubles: &[f64]) -> Vec<u64> {
    doubles.iter().map(|double| double.to_bits()).collect()
}

/// Words through the store, whose numbers are those of the data that the asking hands out.
fn same_as_the_data(words: &[InavWord], timing: bool) {
    let adkd = if timing { Adkd::InavTiming } else { Adkd::InavCed };
    let mut room = tagged(words, adkd);
    let (whole, doubles, table) = if timing {
        let (whole, doubles) = all_timing(&read_timing(&room).unwrap());
        (whole, doubles, &TIMING[..])
    } else {
        let (whole, doubles) = all(&read(&room).unwrap());
        (whole, doubles, &CED[..])
    };
    let store = Store::resume(&mut room);
    let told = if timing { store.get_timing_parameters(svn()) } else { store.get_ced_and_status(svn()) };
    assert_eq!((whole, bits(&doubles)), expected(table, told.unwrap().data()));
}

#[test]
fn an_orbit() {
    let mut room = stored(&words(&CED, &ORBIT));
    assert_eq!(read(&room), Err(Refusal::NotEnough));
    authenticate(&mut room, Adkd::InavCed, start());
    let orbit = read(&room).unwrap();
    let scaled = Scaled {
        m0: -0.5748904729261994,
        e: 0.00014999997802078724,
        root_a: 5440.60000038147,
        omega0: 0.6499999999068677,
        i0: 0.3105497509241104,
        omega: -0.20000000018626451,
        i_dot: -8.219558367272839e-11,
        omega_dot: -1.750436240399722e-09,
        delta_n: 9.525820132694207e-10,
        cuc: -4.999339580535889e-06,
        cus: 8.00006091594696e-06,
        crc: 150.3125,
        crs: -110.03125,
        cic: 5.774199962615967e-08,
        cis: -3.166496753692627e-08,
        af0: -0.0004199999966658652,
        af1: -7.005951374594588e-12,
        af2: 0.0,
        ai0: 60.0,
        ai1: 0.1015625,
        ai2: 0.010009765625,
        bgd_e1_e5a: -3.026798367500305e-09,
        bgd_e1_e5b: -3.4924596548080444e-09,
    };
    assert_eq!(
        orbit,
        Orbit {
            authbits: 40,
            gst: start(),
            word1: Word1 { iodnav: 42, t0e: 2920, m0: -1_234_567_890, e: 1_288_490, root_a: 2_852_441_293 },
            word2: Word2 { iodnav: 42, omega0: 1_395_864_371, i0: 666_900_512, omega: -429_496_730, i_dot: -723 },
            word3: Word3 { iodnav: 42, omega_dot: -15_397, delta_n: 8379, cuc: -2684, cus: 4295, crc: 4810, crs: -3521, sisa: 107 },
            word4: Word4 { iodnav: 42, svid: 11, cic: 31, cis: -17, t0c: 2920, af0: -7_215_545, af1: -493, af2: 0 },
            word5: Word5 {
                ai0: 240,
                ai1: 26,
                ai2: 328,
                region1: 0,
                region2: 0,
                region3: 1,
                region4: 0,
                region5: 0,
                bgd_e1_e5a: -13,
                bgd_e1_e5b: -15,
                e5b_health: 0,
                e1b_health: 1,
                e5b_validity: 0,
                e1b_validity: 1,
            },
            scaled,
        }
    );
    // a comparison of doubles does not see the sign of a zero
    assert_eq!(bits(&all(&orbit).1), bits(&all(&Orbit { scaled, ..orbit }).1));
    assert_eq!(all(&orbit).0, ORBIT.concat());
    same_as_the_data(&words(&CED, &ORBIT), false);
}

#[test]
fn timing_parameters() {
    let mut room = stored(&words(&TIMING, &PARAMETERS));
    assert_eq!(read_timing(&room), Err(Refusal::NotEnough));
    authenticate(&mut room, Adkd::InavTiming, start());
    let numbers = read_timing(&room).unwrap();
    let scaled =
        ScaledTiming { a0: 1.862645149230957e-09, a1: -3.552713678800501e-15, a0g: -2.6193447411060333e-10, a1g: -8.881784197001252e-16 };
    assert_eq!(
        numbers,
        TimingNumbers {
            authbits: 40,
            gst: start(),
            word6: Word6 { a0: 2, a1: -4, dt_ls: 18, t0t: 48, wn0t: 153, wn_lsf: 137, dn: 7, dt_lsf: 18 },
            word10: Word10 { a0g: -9, a1g: -2, t0g: 48, wn0g: 25 },
            scaled,
        }
    );
    assert_eq!(all_timing(&numbers).0, PARAMETERS.concat());
    same_as_the_data(&words(&TIMING, &PARAMETERS), true);
}

/// Of zeros all doubles are plus zero, and of ones no field has more than its own bits.
#[test]
fn zeros_and_ones() {
    let named = [0, i64::from(SATELLITE), 0, 0, 0, 0, 0, 0];
    let room = tagged(&words(&CED, &[&[0; 5], &[0; 5], &[0; 8], &named, &[0; 14]]), Adkd::InavCed);
    assert_eq!(bits(&all(&read(&room).unwrap()).1), [0; 23]);
    let room = tagged(&words(&TIMING, &[&[0; 8], &[0; 4]]), Adkd::InavTiming);
    let (whole, doubles) = all_timing(&read_timing(&room).unwrap());
    assert_eq!((whole, bits(&doubles)), (vec![0; 12], vec![0; 4]));

    let ones = |kinds: &[u8]| -> Vec<InavWord> {
        let word = |kind: &u8| {
            let mut word = [255; WORD_BYTES];
            word[0] = kind << 2 | 3;
            if *kind == 4 {
                word[2] = SATELLITE << 2 | 3;
            }
            word
        };
        kinds.iter().map(word).collect()
    };
    let orbit = read(&tagged(&ones(&[1, 2, 3, 4, 5]), Adkd::InavCed)).unwrap();
    assert_eq!((orbit.word1.iodnav, orbit.word1.t0e, orbit.word1.m0, orbit.word1.e), (1023, 16_383, -1, u32::MAX));
    assert_eq!((orbit.scaled.m0, orbit.scaled.e), (-1.0 / 2_147_483_648.0, 0.5 - 1.0 / 8_589_934_592.0));
    same_as_the_data(&ones(&[1, 2, 3, 4, 5]), false);
    same_as_the_data(&ones(&[6, 10]), true);
}

/// The least and the greatest number of each field, the others 0.
#[test]
fn ends_of_the_fields() {
    for (table, timing) in [(&CED[..], false), (&TIMING[..], true)] {
        for (i, (_, text)) in table.iter().enumerate() {
            for (j, (width, ..)) in fields(text).into_iter().enumerate() {
                if !timing && (j == 0 && i < 4 || (i, j) == (3, 1)) {
                    continue; // IODnav and SVID, for which an orbit is refused
                }
                for value in [1 << (width - 1), (1 << (width - 1)) - 1, (1 << width) - 1, 1] {
                    let mut values: Vec<Vec<i64>> = table.iter().map(|(_, text)| vec![0; fields(text).len()]).collect();
                    if !timing {
                        values[3][1] = SATELLITE.into();
                    }
                    values[i][j] = value;
                    let values: Vec<&[i64]> = values.iter().map(Vec::as_slice).collect();
                    same_as_the_data(&words(table, &values), timing);
                }
            }
        }
    }
}

#[test]
fn any_data() {
    let mut seed = 1u64;
    let mut next = || {
        seed = seed.wrapping_mul(6_364_136_223_846_793_005).wrapping_add(1_442_695_040_888_963_407);
        (seed >> 56) as u8
    };
    for _ in 0..500 {
        let mut random = |kind: u8| -> InavWord {
            let mut word = [0; WORD_BYTES].map(|_| next());
            word[0] = kind << 2 | word[0] & 3;
            word
        };
        let mut ced = [1, 2, 3, 4, 5].map(&mut random);
        let timing = [6, 10].map(&mut random);
        let (first, issue) = (ced[0][0] & 3, ced[0][1]);
        for word in &mut ced[..4] {
            (word[0], word[1]) = (word[0] & !3 | first, issue);
        }
        ced[3][2] = SATELLITE << 2 | ced[3][2] & 3;
        same_as_the_data(&ced, false);
        same_as_the_data(&timing, true);
    }
}

/// What is handed out is what the asking hands out: newer words that no tag is over do not show.
#[test]
fn newer_words_without_a_tag() {
    let mut room = tagged(&words(&CED, &ORBIT), Adkd::InavCed);
    authenticate(&mut room, Adkd::SlowMac, start());
    let first = read(&room).unwrap();
    assert_eq!(first.authbits, 80);
    let mut newer: Vec<Vec<i64>> = ORBIT.iter().map(|values| values.to_vec()).collect();
    newer[..4].iter_mut().for_each(|values| values[0] = 43);
    let newer: Vec<&[i64]> = newer.iter().map(Vec::as_slice).collect();
    let later = start().add_subframes(1).unwrap();
    for word in words(&CED, &newer) {
        Store::resume(&mut room).feed(&word, svn(), later, InavBand::E1B).unwrap();
        assert_eq!(read(&room), Ok(first));
    }
    authenticate(&mut room, Adkd::InavCed, later);
    let second = read(&room).unwrap();
    assert_eq!((second.authbits, second.gst, second.word1.iodnav), (40, later, 43));
    Store::resume(&mut room).reset_authbits().unwrap();
    assert_eq!(read(&room), Err(Refusal::NotEnough));
}

/// 12 comes before 21, 21 before 22.
#[test]
fn issues_and_satellites() {
    for i in 0..4 {
        for svid in [SATELLITE, 12] {
            let mut values: Vec<Vec<i64>> = ORBIT.iter().map(|values| values.to_vec()).collect();
            values[i][0] ^= 1 << (3 * i);
            values[3][1] = svid.into();
            let values: Vec<&[i64]> = values.iter().map(Vec::as_slice).collect();
            let mut room = stored(&words(&CED, &values));
            assert_eq!(read(&room), Err(Refusal::NotEnough));
            authenticate(&mut room, Adkd::InavCed, start());
            assert_eq!(read(&room), Err(Refusal::IssuesDiffer), "word {}", i + 1);
        }
    }
    for svid in 0..64 {
        let mut word4 = ORBIT[3].to_vec();
        word4[1] = svid;
        let mut room = stored(&words(&CED, &[ORBIT[0], ORBIT[1], ORBIT[2], &word4, ORBIT[4]]));
        assert_eq!(read(&room), Err(Refusal::NotEnough));
        authenticate(&mut room, Adkd::InavCed, start());
        let expected = if svid == i64::from(SATELLITE) { Ok(svid) } else { Err(Refusal::OtherSatellite) };
        assert_eq!(read(&room).map(|orbit| orbit.word4.svid.into()), expected, "{svid}");
    }
}

/// 3 and 7 come from the asking, before what the data is tested for.
#[test]
fn refused_as_the_asking_is() {
    assert_eq!(read(&[7; ROOM]), Err(Refusal::NotAStore));
    assert_eq!(read_timing(&[7; ROOM]), Err(Refusal::NotAStore));
    assert_eq!(Store::resume(&mut []).get_orbit(svn()), Err(Refusal::NotAStore));
    assert_eq!(Store::resume(&mut []).get_timing_numbers(svn()), Err(Refusal::NotAStore));

    let mut word1 = ORBIT[0].to_vec();
    word1[0] = 41;
    let all = [words(&CED, &[&word1, ORBIT[1], ORBIT[2], ORBIT[3], ORBIT[4]]), words(&TIMING, &PARAMETERS)].concat();
    let mut room = tagged(&all, Adkd::InavCed);
    authenticate(&mut room, Adkd::InavTiming, start());
    assert_eq!((read(&room), read_timing(&room).map(|numbers| numbers.authbits)), (Err(Refusal::IssuesDiffer), Ok(40)));
    // the first subframe of all comes next: the record is of the one before it
    Store::resume(&mut room).feed(&[0; WORD_BYTES], Svn::new(12).unwrap(), at(0, 0), InavBand::E1B).unwrap();
    assert_eq!((read(&room), read_timing(&room)), (Err(Refusal::TimeArithmetic), Err(Refusal::TimeArithmetic)));
}

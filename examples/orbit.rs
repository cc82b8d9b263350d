//! An orbit as numbers: the words of one satellite, tags over them, and what they authenticated, as whole numbers and as doubles.
use dawnstook::{room_size, Adkd, Ageing, Gst, InavBand, InavWord, NmaStatus, Orbit, Refusal, Store, Svn, Tag, TimingNumbers};

const ROWS: u8 = 13;
const SLOTS: u8 = 36;
const SATELLITE: u8 = 11;
const ISSUE: i128 = 42;

/// The words of the satellite, as far as the store keeps them: the bits of each field and its number.
const SENT: [&[(u32, i128)]; 7] = [
    &[(6, 1), (10, ISSUE), (14, 2920), (32, -1_234_567_890), (32, 1_288_490), (32, 2_852_441_293)],
    &[(6, 2), (10, ISSUE), (32, 1_395_864_371), (32, 666_900_512), (32, -429_496_730), (14, -723)],
    &[(6, 3), (10, ISSUE), (24, -15_397), (16, 8379), (16, -2684), (16, 4295), (16, 4810), (16, -3521), (8, 107)],
    &[(6, 4), (10, ISSUE), (6, SATELLITE as i128), (16, 31), (16, -17), (14, 2920), (31, -7_215_545), (21, -493), (6, 0)],
    &[(6, 5), (11, 240), (11, 26), (14, 328), (1, 0), (1, 0), (1, 0), (1, 0), (1, 0), (10, -13), (10, -15), (2, 0), (2, 0), (1, 0), (1, 0)],
    &[(6, 6), (32, 2), (24, -4), (8, 18), (8, 48), (8, 153), (8, 137), (3, 7), (8, 18)],
    &[(6, 10), (80, 0), (16, -9), (12, -2), (8, 48), (6, 25)], // behind the almanac's 80 bits
];

fn number<T>(result: Result<T, Refusal>) -> u8 {
    result.map_or_else(Refusal::number, |_| 0)
}

fn word(fields: &[(u32, i128)]) -> InavWord {
    let (bits, word) = fields.iter().fold((0, 0), |(at, word), (bits, value)| {
        let field = (*value as u128) & ((1 << bits) - 1);
        (at + bits, word << bits | field)
    });
    (word << (128 - bits)).to_be_bytes()
}

/// A tag comes a subframe later. Its data is copied out of the room, and the receiver checks it with the key.
fn tag(store: &mut Store, svn: Svn, adkd: Adkd, start: Gst) -> Result<(), Refusal> {
    let tag = Tag { svn, adkd, cop: 1, mack: start.add_subframes(1)? };
    let data = store.candidate(tag)?.to_vec();
    let records = store.tag(tag, 40, NmaStatus::Operational, &data, true)?;
    println!("candidate 0, {} bytes; tag 0, records {records}", data.len());
    Ok(())
}

/// A field that is a whole number alone.
fn whole(name: &str, value: impl Into<i64>, unit: &str) {
    println!("{}", format!("{name:<12} {:>11} {unit}", value.into()).trim_end());
}

/// A field that is a double too, which is printed as C's "%.16e" prints it.
fn scaled(name: &str, value: impl Into<i64>, number: f64, unit: &str) {
    let text = format!("{number:.16e}");
    let (digits, exponent) = text.split_once('e').unwrap_or((&text, "0"));
    let exponent: i32 = exponent.parse().unwrap_or(0);
    println!("{}", format!("{name:<12} {:>11} = {digits}e{exponent:+03} {unit}", value.into()).trim_end());
}

fn show(orbit: &Orbit) {
    let Orbit { word1: w1, word2: w2, word3: w3, word4: w4, word5: w5, scaled: s, .. } = orbit;
    whole("IODnav", w1.iodnav, "");
    whole("SVID", w4.svid, "");
    whole("t0e", w1.t0e, "x 60 s");
    scaled("M0", w1.m0, s.m0, "semicircles");
    scaled("e", w1.e, s.e, "");
    scaled("root A", w1.root_a, s.root_a, "m^(1/2)");
    scaled("Omega0", w2.omega0, s.omega0, "semicircles");
    scaled("i0", w2.i0, s.i0, "semicircles");
    scaled("omega", w2.omega, s.omega, "semicircles");
    scaled("i-dot", w2.i_dot, s.i_dot, "semicircles/s");
    scaled("Omega-dot", w3.omega_dot, s.omega_dot, "semicircles/s");
    scaled("delta n", w3.delta_n, s.delta_n, "semicircles/s");
    scaled("Cuc", w3.cuc, s.cuc, "rad");
    scaled("Cus", w3.cus, s.cus, "rad");
    scaled("Crc", w3.crc, s.crc, "m");
    scaled("Crs", w3.crs, s.crs, "m");
    scaled("Cic", w4.cic, s.cic, "rad");
    scaled("Cis", w4.cis, s.cis, "rad");
    whole("SISA", w3.sisa, "");
    whole("t0c", w4.t0c, "x 60 s");
    scaled("af0", w4.af0, s.af0, "s");
    scaled("af1", w4.af1, s.af1, "s/s");
    scaled("af2", w4.af2, s.af2, "s/s^2");
    scaled("ai0", w5.ai0, s.ai0, "sfu");
    scaled("ai1", w5.ai1, s.ai1, "sfu/degree");
    scaled("ai2", w5.ai2, s.ai2, "sfu/degree^2");
    println!("regions      {} {} {} {} {}", w5.region1, w5.region2, w5.region3, w5.region4, w5.region5);
    scaled("BGD(E1,E5a)", w5.bgd_e1_e5a, s.bgd_e1_e5a, "s");
    scaled("BGD(E1,E5b)", w5.bgd_e1_e5b, s.bgd_e1_e5b, "s");
    println!("health       E5b {}, E1-B {}", w5.e5b_health, w5.e1b_health);
    println!("validity     E5b {}, E1-B {}", w5.e5b_validity, w5.e1b_validity);
}

fn show_timing(numbers: &TimingNumbers) {
    let TimingNumbers { word6: w6, word10: w10, scaled: s, .. } = numbers;
    scaled("A0", w6.a0, s.a0, "s");
    scaled("A1", w6.a1, s.a1, "s/s");
    whole("t0t", w6.t0t, "x 3600 s");
    whole("WN0t", w6.wn0t, "weeks, modulo 256");
    whole("dtLS", w6.dt_ls, "s");
    whole("WNLSF", w6.wn_lsf, "weeks, modulo 256");
    whole("DN", w6.dn, "day of 1 to 7");
    whole("dtLSF", w6.dt_lsf, "s");
    scaled("A0G", w10.a0g, s.a0g, "s");
    scaled("A1G", w10.a1g, s.a1g, "s/s");
    whole("t0G", w10.t0g, "x 3600 s");
    whole("WN0G", w10.wn0g, "weeks, modulo 64");
}

fn main() -> Result<(), Refusal> {
    let mut room = [0; room_size(ROWS, SLOTS)];
    let (svn, start) = (Svn::try_from(SATELLITE)?, Gst::try_new(1177, 175_740)?);
    let mut store = Store::new(&mut room, ROWS, SLOTS, Ageing::Time)?;
    println!("fresh 0");
    for (seconds, fields) in (0..).step_by(2).zip(SENT) {
        let at = start.add_seconds(seconds)?;
        println!("word {}: {}", fields[0].1, number(store.feed(&word(fields), svn, at, InavBand::E1B)));
    }
    println!("before the tag: {}", number(store.get_orbit(svn)));

    tag(&mut store, svn, Adkd::InavCed, start)?;
    let orbit = store.get_orbit(svn)?;
    println!("orbit of {svn}: 0, {} bits, week {}, time {}", orbit.authbits, orbit.gst.wn().get(), orbit.gst.tow().get());
    show(&orbit);

    tag(&mut store, svn, Adkd::InavTiming, start)?;
    let numbers = store.get_timing_numbers(svn)?;
    println!("timing of {svn}: 0, {} bits, week {}, time {}", numbers.authbits, numbers.gst.wn().get(), numbers.gst.tow().get());
    show_timing(&numbers);
    Ok(())
}

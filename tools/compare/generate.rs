//! Makes bench input from a seed: the same seed gives the same bytes.
//!
//! usage: generate SEED RECORDS [whole]      bench input
//!        generate times SEED CALLS [bytes]  time calls, in the oracle's text or byte form
//!
//! A stream is a row of stretches, each in one mood (a constellation, a small pool of everything, many advances of the ring, many
//! tags up to the count's cap, times at the edges, bad fields, other sizes). The ring's times are followed, so that a tag can be
//! given the time of a row that is there; nothing else of the store is. Most streams end inside a record or with an unknown kind
//! byte; with `whole` a stream ends behind its last record.

use std::io::Write;

/// SplitMix64.
struct Chance(u64);

impl Chance {
    fn next(&mut self) -> u64 {
        self.0 = self.0.wrapping_add(0x9e37_79b9_7f4a_7c15);
        let mut z = self.0;
        z = (z ^ (z >> 30)).wrapping_mul(0xbf58_476d_1ce4_e5b9);
        z = (z ^ (z >> 27)).wrapping_mul(0x94d0_49bb_1331_11eb);
        z ^ (z >> 31)
    }

    /// A number below `n`.
    fn below(&mut self, n: u64) -> u64 {
        self.next() % n
    }

    fn within(&mut self, low: u64, high: u64) -> u64 {
        low + self.below(high - low + 1)
    }

    /// True in `n` of 100.
    fn percent(&mut self, n: u64) -> bool {
        self.below(100) < n
    }

    fn of<T: Copy>(&mut self, choices: &[T]) -> T {
        choices[self.below(choices.len() as u64) as usize]
    }

    fn byte(&mut self) -> u8 {
        self.next() as u8
    }
}

const WEEK: u32 = 604_800;
const LENGTHS: [u8; 5] = [20, 24, 28, 32, 40];

type Time = (u16, u32);

/// The start of a subframe moved by whole subframes, given in seconds, and kept between the first and the last.
fn moved((week, time): Time, seconds: i64) -> Time {
    let last = 65_536 * i64::from(WEEK) - 30;
    let sum = (i64::from(week) * i64::from(WEEK) + i64::from(time) + seconds).clamp(0, last);
    (
        (sum / i64::from(WEEK)) as u16,
        (sum % i64::from(WEEK)) as u32,
    )
}

#[derive(Clone, Copy, PartialEq)]
enum Mood {
    Constellation,
    Pool,
    Advance,
    Cap,
    Edge,
    Faults,
    Sizes,
}

struct Stream {
    chance: Chance,
    out: Vec<u8>,
    records: usize,
    most: usize,
    /// D and N of the store, where there is one.
    size: Option<(u8, u8)>,
    rows: Vec<Option<Time>>,
    current: usize,
    now: Time,
    satellites: Vec<u8>,
    /// Each satellite's data changes with its version; satellites with the same look have the same data.
    versions: [u8; 37],
    same_look: bool,
    /// How often in 100 a field is out of its range.
    faults: u64,
}

impl Stream {
    fn full(&self) -> bool {
        self.records >= self.most
    }

    fn put(&mut self, kind: u8, parts: &[&[u8]]) {
        self.out.push(kind);
        for part in parts {
            self.out.extend_from_slice(part);
        }
        self.records += 1;
    }

    /// A store that ages by moves, as the Rust's does: by kind 6, or by kind 9 with rule 0.
    fn fresh(&mut self, d: u8, n: u8) {
        if self.chance.below(3) == 0 {
            self.put(9, &[&[d, n, 0]]);
        } else {
            self.put(6, &[&[d, n]]);
        }
        self.size = Some((d, n));
        self.rows = vec![None; d.into()];
        self.current = 0;
    }

    fn some_fresh(&mut self, small: bool) {
        let (d, n) = match self.chance.below(20) {
            0 => (16, 36),
            1 => (13, 36),
            2 => (3, 12),
            3 => (1, self.chance.within(1, 36) as u8),
            4 => (self.chance.within(1, 16) as u8, 1),
            5..=9 if !small => (
                self.chance.within(1, 16) as u8,
                self.chance.within(1, 36) as u8,
            ),
            _ => (
                self.chance.within(1, 4) as u8,
                self.chance.within(1, 6) as u8,
            ),
        };
        self.fresh(d, n);
    }

    /// Sizes out of their range, by kind 6 or by kind 9 with any rule; or sizes in their range and a rule that is none. Rule 1 is not the
    /// Rust's, and so is never with sizes in their range.
    fn refused_fresh(&mut self) {
        if self.chance.percent(30) {
            let (d, n) = (self.chance.within(1, 16), self.chance.within(1, 36));
            let rule = match self.chance.below(3) {
                0 => 2,
                1 => 255,
                _ => self.chance.within(2, 255) as u8,
            };
            self.put(9, &[&[d as u8, n as u8, rule]]);
            return;
        }
        let (d, n) = match self.chance.below(6) {
            0 => (0, self.chance.byte()),
            1 => (17, self.chance.within(1, 36) as u8),
            2 => (self.chance.within(1, 16) as u8, 0),
            3 => (self.chance.within(1, 16) as u8, 37),
            4 => (
                self.chance.within(17, 255) as u8,
                self.chance.within(37, 255) as u8,
            ),
            _ => (
                self.chance.within(1, 16) as u8,
                self.chance.within(37, 255) as u8,
            ),
        };
        if self.chance.percent(50) {
            let rule = match self.chance.below(3) {
                0 => self.chance.byte(),
                rule => (rule - 1) as u8,
            };
            self.put(9, &[&[d, n, rule]]);
        } else {
            self.put(6, &[&[d, n]]);
        }
    }

    fn satellite(&mut self) -> u8 {
        if self.chance.percent(self.faults) {
            return match self.chance.below(3) {
                0 => 0,
                1 => 37,
                _ => self.chance.within(37, 255) as u8,
            };
        }
        self.chance.of(&self.satellites.clone())
    }

    /// A time out of range now and then, else the one given.
    fn time_of_week(&mut self, time: u32) -> u32 {
        if self.chance.percent(self.faults) {
            return match self.chance.below(3) {
                0 => WEEK,
                1 => u32::MAX,
                _ => self.chance.within(u64::from(WEEK), u64::from(u32::MAX)) as u32,
            };
        }
        time
    }

    /// The 16 bytes of a word of this satellite and type: the same each time, until the satellite's version changes.
    fn word_bytes(&mut self, satellite: u8, kind: u8) -> [u8; 16] {
        let look = if self.same_look { 0 } else { satellite };
        let version = self.versions[usize::from(satellite.min(36))];
        let mut bytes = [0u8; 16];
        if version != 0 {
            let mut of_data =
                Chance(u64::from(look) << 16 | u64::from(version) << 8 | u64::from(kind));
            for byte in &mut bytes {
                *byte = of_data.byte();
            }
        }
        // bits that no record owns may be anything
        let owned = match kind {
            1 | 2 | 4 => 6..126,
            3 => 6..128,
            5 => 6..73,
            6 => 6..105,
            10 => 86..128,
            _ => 128..128,
        };
        let noise = self.chance.percent(30);
        for bit in 6..128 {
            if noise && !owned.contains(&bit) && self.chance.percent(50) {
                bytes[bit / 8] ^= 0x80 >> (bit % 8);
            }
        }
        if self.chance.percent(2) {
            let bit = match self.chance.below(4) {
                0 if !owned.is_empty() => owned.start,
                1 if !owned.is_empty() => owned.end - 1,
                _ => self.chance.within(6, 127) as usize,
            };
            bytes[bit / 8] ^= 0x80 >> (bit % 8);
        }
        bytes[0] = bytes[0] & 3 | kind << 2;
        bytes
    }

    fn word(&mut self, satellite: u8, kind: u8, (week, start): Time) {
        let band = match self.chance.below(100) {
            x if x < self.faults => self.chance.within(2, 255) as u8,
            x if x >= 85 => 1,
            _ => 0,
        };
        let inside = self.chance.below(30) as u32 * u32::from(self.chance.percent(50));
        let time = self.time_of_week(start + inside);
        let bytes = self.word_bytes(satellite, kind);
        self.put(
            1,
            &[
                &[satellite, band],
                &week.to_be_bytes(),
                &time.to_be_bytes(),
                &bytes,
            ],
        );
        let good = self.size.is_some() && (1..=36).contains(&satellite) && time < WEEK && band < 2;
        if good {
            let subframe = (week, start);
            if self.rows[self.current].is_some_and(|row| row != subframe) {
                self.current = (self.current + 1) % self.rows.len();
            }
            self.rows[self.current] = Some(subframe);
        }
    }

    fn any_type(&mut self) -> u8 {
        match self.chance.below(10) {
            0 => self.chance.below(64) as u8,
            1 => self.chance.of(&[0, 7, 8, 9, 11, 16, 63]),
            2 | 3 => 6,
            4 => 10,
            _ => self.chance.within(1, 5) as u8,
        }
    }

    /// The time of a MACK whose data lies in one of the last rows, mostly.
    fn mack_time(&mut self) -> Time {
        let depth = self.rows.len() as u64;
        let back = if self.chance.percent(70) {
            0
        } else {
            self.chance.below(depth.max(1))
        };
        let row = if depth == 0 {
            None
        } else {
            self.rows[(self.current as u64 + depth - back) as usize % depth as usize]
        };
        match self.chance.below(60) {
            0 => (0, 0),
            1 => (
                self.chance.of(&[0, 1, 65535]),
                30 * self.chance.below(20160) as u32,
            ),
            2 => self.now,
            _ => moved(row.unwrap_or(self.now), 30),
        }
    }

    fn tag(&mut self, satellite: u8, kind: u8, time: Time, sure: bool) {
        let cop = match self.chance.below(20) {
            x if x < 11 || sure => 15,
            18 => 0,
            19 => 1,
            x if x < 13 => self.chance.within(1, 4) as u8,
            _ => self.chance.within(1, 15) as u8,
        };
        let cop = if self.chance.percent(self.faults) {
            self.chance.within(16, 255) as u8
        } else {
            cop
        };
        let length = if self.chance.percent(self.faults) {
            self.chance.of(&[0, 19, 21, 36, 41, 60, 255])
        } else {
            self.chance.of(&LENGTHS)
        };
        let length = if sure { 40 } else { length };
        let kind = if self.chance.percent(self.faults) {
            self.chance.of(&[1, 2, 3, 5, 6, 11, 13, 15, 16, 255])
        } else {
            kind
        };
        let status = match self.chance.below(100) {
            x if x < self.faults => self.chance.within(4, 255) as u8,
            x if sure || x < 70 => self.chance.within(1, 2) as u8,
            _ => self.chance.below(4) as u8,
        };
        let verdict = match self.chance.below(20) {
            0 | 1 if !sure => 0,
            2 => self.chance.within(1, 255) as u8,
            _ => 1,
        };
        let (week, start) = time;
        let start = if self.chance.percent(1 + self.faults / 2) {
            start + 1 + self.chance.below(29) as u32
        } else {
            start
        };
        let start = self.time_of_week(start);
        self.put(
            2,
            &[
                &[satellite, kind, cop, length, status, verdict],
                &week.to_be_bytes(),
                &start.to_be_bytes(),
            ],
        );
    }

    fn some_tag(&mut self) {
        let satellite = self.satellite();
        let kind = self.chance.of(&[0, 0, 4, 4, 12]);
        let time = self.mack_time();
        self.tag(satellite, kind, time, false);
    }

    fn ask(&mut self) {
        let satellite = self.satellite();
        let kind = self.chance.of(&[4, 5]);
        self.put(kind, &[&[satellite]]);
    }

    fn next_subframe(&mut self) {
        self.now = match self.chance.below(100) {
            0..80 => moved(self.now, 30),
            80..86 => moved(self.now, -30 * self.chance.within(1, 5) as i64),
            86..95 => moved(self.now, 30 * self.chance.within(2, 40) as i64),
            95 => moved(self.now, -604_800),
            96 => moved(self.now, 604_800),
            97 => self.chance.of(&self.rows.clone()).unwrap_or(self.now),
            _ => self.any_time(),
        };
    }

    fn any_time(&mut self) -> Time {
        let week = match self.chance.below(6) {
            0 => 0,
            1 => 65535,
            2 => 1,
            _ => self.chance.below(65536) as u16,
        };
        let time = match self.chance.below(6) {
            0 => 0,
            1 => WEEK - 30,
            2 => 30,
            _ => 30 * self.chance.below(20160) as u32,
        };
        (week, time)
    }

    fn pick_satellites(&mut self, most: u64) {
        let count = self.chance.within(1, most.clamp(1, 36));
        let first = self.chance.below(36);
        self.satellites = (0..count).map(|i| ((first + i * 5) % 36 + 1) as u8).collect();
    }

    fn all_words(&mut self, satellite: u8, time: Time, lost: u64) {
        let mut kinds = [1, 2, 3, 4, 5, 6, 10];
        if self.chance.percent(50) {
            for i in (1..kinds.len()).rev() {
                kinds.swap(i, self.chance.below(i as u64 + 1) as usize);
            }
        }
        for kind in kinds {
            if !self.chance.percent(lost) {
                self.word(satellite, kind, time);
            }
        }
    }

    fn change_data(&mut self) {
        let satellite = usize::from(self.chance.of(&self.satellites.clone()));
        self.versions[satellite] = self.chance.below(4) as u8;
    }

    fn constellation(&mut self) {
        let n = self.size.map_or(4, |(_, n)| u64::from(n));
        let more = self.chance.of(&[0, 0, 1, 3]);
        self.pick_satellites(n + more);
        let lost = self.chance.of(&[0, 0, 5, 20, 60]);
        for _ in 0..self.chance.within(3, 12) {
            for satellite in self.satellites.clone() {
                if self.chance.percent(70) {
                    self.all_words(satellite, self.now, lost);
                }
                if self.chance.percent(20) {
                    let kind = self.chance.below(64) as u8;
                    self.word(satellite, kind, self.now);
                }
                if self.full() {
                    return;
                }
            }
            for _ in 0..self.chance.below(3 * self.satellites.len() as u64 + 4) {
                self.some_tag();
                if self.chance.percent(30) {
                    self.ask();
                }
            }
            if self.chance.percent(20) {
                self.change_data();
            }
            if self.chance.percent(2) {
                self.put(3, &[]);
            }
            self.next_subframe();
        }
    }

    fn pool(&mut self) {
        self.pick_satellites(5);
        let times: Vec<Time> = (0..4).map(|i| moved(self.now, 30 * i)).collect();
        for _ in 0..self.chance.within(50, 400) {
            match self.chance.below(40) {
                0..22 => {
                    let satellite = self.satellite();
                    let kind = self.any_type();
                    let time = self.chance.of(&times);
                    self.word(satellite, kind, time);
                }
                22..32 => self.some_tag(),
                32 => {
                    let satellite = self.satellite();
                    let kind = self.chance.of(&[0, 4, 12]);
                    let time = moved(self.chance.of(&times), 30);
                    self.tag(satellite, kind, time, false);
                }
                33..38 => self.ask(),
                38 => self.change_data(),
                _ => {
                    if self.chance.percent(15) {
                        self.put(3, &[]);
                    }
                }
            }
            if self.full() {
                return;
            }
        }
    }

    /// Ages grow to their cap: one word or none of each satellite in each of many subframes. In a quiet stretch no word stores anything once
    /// the tags are in, so that the least age of data with a count grows to the cap too.
    fn advance(&mut self) {
        let quiet = self.chance.percent(50);
        let (kinds, most): (&[u8], u64) = if quiet {
            (&[0, 63, 7], 2)
        } else {
            (&[0, 0, 0, 63, 7, 5, 6], 4)
        };
        self.pick_satellites(most);
        for satellite in self.satellites.clone() {
            if quiet {
                self.all_words(satellite, self.now, 0);
            }
            self.all_words(satellite, self.now, 10);
            for kind in [0, 4] {
                let time = moved(self.now, 30);
                self.tag(satellite, kind, time, true);
            }
        }
        for step in 0..self.chance.of(&[20, 100, 270, 300]) {
            self.next_subframe();
            let satellite = self.satellite();
            let kind = self.chance.of(kinds);
            self.word(satellite, kind, self.now);
            if self.chance.percent(20) || (250..262).contains(&step) {
                self.some_tag();
                self.ask();
            }
            if self.full() {
                return;
            }
        }
    }

    /// A record's count grows to its cap and is asked on the way.
    fn cap(&mut self) {
        self.pick_satellites(2);
        let satellite = self.satellites[0];
        for _ in 0..3 {
            self.all_words(satellite, self.now, 0); // again, since now and then one goes by E5B or with a bit changed
        }
        let kinds: &[u8] = self.chance.of(&[&[0, 12], &[4], &[0]]);
        let (row, ends) = (self.now, self.chance.within(1650, 1850));
        for step in 0..ends {
            let kind = self.chance.of(kinds);
            self.tag(satellite, kind, moved(row, 30), step + 10 < ends);
            if self.chance.percent(3) {
                self.put(if kind == 4 { 5 } else { 4 }, &[&[satellite]]);
            }
        }
        for kind in [4, 5] {
            self.put(kind, &[&[satellite]]);
        }
    }

    /// Times where the arithmetic ends: an answer's time may lie before the first week.
    fn edge(&mut self) {
        self.pick_satellites(3);
        let edges = [
            (0, 0),
            (0, 30),
            (0, 60),
            (0, WEEK - 30),
            (1, 0),
            (65535, 0),
            (65535, WEEK - 60),
            (65535, WEEK - 30),
        ];
        for _ in 0..self.chance.within(10, 60) {
            self.now = self.chance.of(&edges);
            let satellite = self.satellite();
            if self.chance.percent(60) {
                self.all_words(satellite, self.now, 5);
            } else {
                let kind = self.any_type();
                self.word(satellite, kind, self.now);
            }
            for _ in 0..self.chance.below(4) {
                let kind = self.chance.of(&[0, 4, 12]);
                let time = if self.chance.percent(80) {
                    moved(self.now, 30)
                } else {
                    self.chance.of(&edges)
                };
                let sure = self.chance.percent(50);
                self.tag(satellite, kind, time, sure);
            }
            self.ask();
            self.ask();
            if self.full() {
                return;
            }
        }
    }

    fn sizes(&mut self) {
        for _ in 0..self.chance.within(3, 20) {
            match self.chance.below(10) {
                0..3 => self.refused_fresh(),
                3..9 => {
                    let (d, n) = (self.chance.within(1, 16), self.chance.within(1, 36));
                    self.fresh(d as u8, n as u8);
                }
                _ => self.some_fresh(false),
            }
            self.pick_satellites(6);
            for _ in 0..self.chance.below(12) {
                let satellite = self.satellite();
                if self.chance.percent(20) {
                    self.all_words(satellite, self.now, 0);
                    self.tag(satellite, 0, moved(self.now, 30), true);
                } else {
                    let kind = self.any_type();
                    self.word(satellite, kind, self.now);
                }
                if self.chance.percent(30) {
                    self.next_subframe();
                }
                if self.chance.percent(30) {
                    self.some_tag();
                    self.ask();
                }
            }
            if self.full() {
                return;
            }
        }
    }

    fn stretch(&mut self) {
        let mood = self.mood();
        self.stretch_of(mood);
    }

    fn mood(&mut self) -> Mood {
        match self.chance.below(100) {
            0..44 => Mood::Constellation,
            44..66 => Mood::Pool,
            66..74 => Mood::Advance,
            74..75 => Mood::Cap,
            75..84 => Mood::Edge,
            84..94 => Mood::Faults,
            _ => Mood::Sizes,
        }
    }

    fn stretch_of(&mut self, mood: Mood) {
        self.same_look = self.chance.percent(30);
        self.versions = [self.chance.below(4) as u8; 37];
        self.faults = if mood == Mood::Faults { 10 } else { 0 };
        if self.chance.percent(30) {
            self.now = self.any_time();
        }
        if self.size.is_none() || self.chance.percent(50) {
            let small = matches!(mood, Mood::Pool | Mood::Edge) || self.chance.percent(50);
            self.some_fresh(small);
        }
        match mood {
            Mood::Constellation => self.constellation(),
            Mood::Pool | Mood::Faults => self.pool(),
            Mood::Advance => self.advance(),
            Mood::Cap => self.cap(),
            Mood::Edge => self.edge(),
            Mood::Sizes => self.sizes(),
        }
    }

    /// Records before there is a store.
    fn before_any_store(&mut self) {
        self.pick_satellites(4);
        self.faults = 10;
        for _ in 0..self.chance.within(1, 12) {
            match self.chance.below(5) {
                0 => {
                    let satellite = self.satellite();
                    let kind = self.any_type();
                    self.word(satellite, kind, self.now);
                }
                1 => self.some_tag(),
                2 => self.ask(),
                3 => self.put(3, &[]),
                _ => self.refused_fresh(),
            }
        }
    }

    fn end(&mut self) {
        match self.chance.below(4) {
            0 => {
                let kind = match self.chance.below(3) {
                    0 => 0,
                    1 => self.chance.of(&[7, 8, 10]),
                    _ => self.chance.within(10, 255) as u8,
                };
                self.out.push(kind);
                for _ in 0..self.chance.below(40) {
                    let byte = self.chance.below(8) as u8;
                    self.out.push(byte);
                }
            }
            1 | 2 => {
                let (kind, body) = self.chance.of(&[(1, 24), (2, 12), (4, 1), (5, 1), (6, 2), (9, 3)]);
                self.out.push(kind);
                for _ in 0..self.chance.below(body) {
                    let byte = self.chance.byte();
                    self.out.push(byte);
                }
            }
            _ => {}
        }
    }
}

fn stream(seed: u64, records: usize, whole: bool) -> Vec<u8> {
    let mut stream = Stream {
        chance: Chance(seed.wrapping_mul(0xd134_2543_de82_ef95)),
        out: Vec::new(),
        records: 0,
        most: records,
        size: None,
        rows: Vec::new(),
        current: 0,
        now: (1177, 175_740),
        satellites: vec![1],
        versions: [0; 37],
        same_look: false,
        faults: 0,
    };
    if stream.chance.percent(40) || whole {
        stream.before_any_store();
    }
    if seed % 8 == 0 {
        stream.stretch_of(Mood::Cap); // too long to be drawn often, so that short streams would seldom have one
    }
    while !stream.full() {
        stream.stretch();
    }
    if !whole {
        stream.end();
    }
    stream.out
}

/// Time calls, most of them at the edges of their numbers.
fn times(seed: u64, calls: usize, bytes: bool, out: &mut impl Write) -> std::io::Result<()> {
    let mut chance = Chance(seed);
    let week = |chance: &mut Chance| match chance.below(3) {
        0 => chance.of(&[0, 1, 2, 3549, 3550, 3551, 65534, 65535]),
        1 => chance.below(8) as u16,
        _ => chance.next() as u16,
    };
    let tow = |chance: &mut Chance| match chance.below(8) {
        0..3 => chance.of(&[0, 1, 29, 30, 31, 604_769, 604_770, 604_771, 604_798, 604_799]),
        3 => chance.of(&[604_800, 604_801, 1 << 31, u32::MAX]),
        4 => 30 * chance.below(20160) as u32,
        _ => chance.below(604_800) as u32,
    };
    let around = |chance: &mut Chance, centres: &[i64]| -> i32 {
        let centre = chance.of(centres);
        let sign = chance.of(&[-1, 1]);
        let step = chance.within(0, 4) as i64 - 2;
        (sign * centre + step).clamp(i64::from(i32::MIN), i64::from(i32::MAX)) as i32
    };
    for _ in 0..calls {
        let call = chance.within(1, 6) as u8;
        let first = (week(&mut chance), tow(&mut chance));
        let second = (week(&mut chance), tow(&mut chance));
        let number = match (chance.below(4), call) {
            (0, _) => chance.next() as i32,
            (1, _) => chance.below(2_000_000) as i32 - 1_000_000,
            (_, 1) => {
                let weeks = chance.below(3552) as i64 * 604_800;
                around(
                    &mut chance,
                    &[0, 30, 604_799, 604_800, 1_209_600, weeks, i64::from(i32::MAX)],
                )
            }
            _ => {
                let weeks = chance.below(3552) as i64 * 20_160;
                around(
                    &mut chance,
                    &[0, 1, 20_160, weeks, 71_582_788, i64::from(i32::MAX)],
                )
            }
        };
        let satellite = chance.of(&[0, 1, 9, 10, 35, 36, 37, 38, 255, 256, 257, 65535]);
        if bytes {
            let (head, tail) = match call {
                3 => (first, second),
                6 => ((satellite, 0), (0, 0)),
                1 | 2 => (first, (0, number as u32)),
                _ => (first, (0, 0)),
            };
            out.write_all(&[call])?;
            for (week, time) in [head, tail] {
                out.write_all(&week.to_be_bytes())?;
                out.write_all(&time.to_be_bytes())?;
            }
        } else {
            let (w, t) = first;
            match call {
                1 => writeln!(out, "add {w} {t} {number}")?,
                2 => writeln!(out, "sub {w} {t} {number}")?,
                3 => writeln!(out, "diff {w} {t} {} {}", second.0, second.1)?,
                4 => writeln!(out, "start {w} {t}")?,
                5 => writeln!(out, "is {w} {t}")?,
                _ => writeln!(out, "svn {satellite}")?,
            }
        }
    }
    Ok(())
}

fn main() -> std::io::Result<()> {
    let words: Vec<String> = std::env::args().skip(1).collect();
    let words: Vec<&str> = words.iter().map(String::as_str).collect();
    let mut out = std::io::BufWriter::new(std::io::stdout().lock());
    let number = |text: &str| text.parse::<u64>().expect("a number");
    match words[..] {
        ["times", seed, calls] => times(number(seed), number(calls) as usize, false, &mut out)?,
        ["times", seed, calls, "bytes"] => {
            times(number(seed), number(calls) as usize, true, &mut out)?
        }
        [seed, records] => {
            out.write_all(&stream(number(seed), number(records) as usize, false))?
        }
        [seed, records, "whole"] => {
            out.write_all(&stream(number(seed), number(records) as usize, true))?
        }
        _ => {
            eprintln!("usage: generate SEED RECORDS [whole] | generate times SEED CALLS [bytes]");
            std::process::exit(2);
        }
    }
    out.flush()
}

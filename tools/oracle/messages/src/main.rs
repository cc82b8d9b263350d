//! The oracle of messages: the bytes that the unchanged Rust gives to the MAC of a tag.
//!
//! usage: messages   (standard input to standard output)
//!
//! Reads records to the end of the input and prints a line for each. Numbers are big-endian; a field with no size is a byte.
//!
//! ```text
//! 1, form, sender, data's satellite, week 2, time 4, status, counter 4, room, N, data N     b 0 HEX, or b and a refusal
//! 2, form, room, N, message N                                                               r -
//! ```
//!
//! Forms are 0 (CED), 1 (tag 0) and 2 (timing). HEX is all of the lent buffer: its `room` bytes are a5 before, and the message is at
//! its front afterwards. The Rust reads no message back, so it has no answer to a record of kind 2. x 13 and x 14 are the end at an
//! unknown kind and inside a record.
//!
//! The bytes are what the Rust's `validate_tag` and `validate_tag0` give to the MAC. A tag 0 whose counter is not 1, which the Rust
//! does not have, goes to `update_mac_with_navdata`, which both of them call. A dummy tag has no data, and its message is that of data
//! of zeros: this is required of the Rust's `validate_tag_dummy` and `validate_tag0_dummy`. 4, 5 and 6 come from `Svn::try_from`,
//! `Gst::new` and `is_subframe`. The Rust has no word for 9, 7 and 8: they are tested here, in this order and behind the others.

use messages::bitfields::NmaStatus;
use messages::tesla::{Key, MacFunction};
use messages::types::BitSlice;
use messages::{Gst, Svn, noted};
use std::io::{BufWriter, Read, Write};
use std::panic::catch_unwind;

const LENT: u8 = 0xa5;
const TAG_0: u8 = 1;

/// A panic in gst.rs is an answer. Any other is a fault of the oracle and ends it.
fn watch_panics() {
    std::panic::set_hook(Box::new(|info| {
        let from_gst = info
            .location()
            .is_some_and(|place| place.file().ends_with("gst.rs"));
        if !from_gst {
            eprintln!("messages: {info}");
            std::process::exit(70);
        }
    }));
}

/// The bytes of the input that are not read yet.
struct Input<'a>(&'a [u8]);

struct CutOff;

impl<'a> Input<'a> {
    fn bytes(&mut self, n: usize) -> Result<&'a [u8], CutOff> {
        let (first, rest) = self.0.split_at_checked(n).ok_or(CutOff)?;
        self.0 = rest;
        Ok(first)
    }

    fn take<const K: usize>(&mut self) -> Result<[u8; K], CutOff> {
        Ok(self.bytes(K)?.try_into().unwrap())
    }

    fn byte(&mut self) -> Result<u8, CutOff> {
        Ok(self.take::<1>()?[0])
    }
}

struct Build<'a> {
    form: u8,
    sender: u8,
    satellite: u8,
    week: u16,
    time: u32,
    status: u8,
    counter: u32,
    room: u8,
    data: &'a [u8],
}

impl<'a> Build<'a> {
    fn read(input: &mut Input<'a>) -> Result<Self, CutOff> {
        Ok(Build {
            form: input.byte()?,
            sender: input.byte()?,
            satellite: input.byte()?,
            week: u16::from_be_bytes(input.take()?),
            time: u32::from_be_bytes(input.take()?),
            status: input.byte()?,
            counter: u32::from_be_bytes(input.take()?),
            room: input.byte()?,
            data: {
                let n = input.byte()?;
                input.bytes(n.into())?
            },
        })
    }

    /// The lent buffer with the message at its front, or the number of the refusal.
    fn answer(&self) -> Result<Vec<u8>, u8> {
        let sender = Svn::try_from(self.sender).map_err(|_| 4)?;
        let satellite = Svn::try_from(self.satellite).map_err(|_| 4)?;
        let gst = catch_unwind(|| Gst::new(self.week, self.time)).map_err(|_| 5)?;
        if !gst.is_subframe() {
            return Err(6);
        }
        let (bits, bytes) = match self.form {
            0 => (549usize, 76),
            TAG_0 => (549, 75),
            2 => (141, 25),
            _ => return Err(9),
        };
        let status = match self.status {
            0 => NmaStatus::Reserved,
            1 => NmaStatus::Test,
            2 => NmaStatus::Operational,
            3 => NmaStatus::DontUse,
            _ => return Err(9),
        };
        if self.week > 4095 {
            return Err(7);
        }
        let counter = u8::try_from(self.counter).map_err(|_| 8)?;
        let mut lent = vec![LENT; self.room.into()];
        if counter == 0 || self.data.len() != bits.div_ceil(8) || lent.len() < bytes {
            return Err(8);
        }

        let navdata = &BitSlice::from_slice(self.data)[..bits];
        let tag = BitSlice::from_slice(&[0; 5]);
        let of_mac = |function| {
            let key = Key::of_zeros(function);
            let valid = match (self.form, counter) {
                (TAG_0, 1) => key.validate_tag0(tag, gst, sender, status, navdata),
                (TAG_0, _) => key.validate_tag0_counted(tag, gst, sender, counter, status, navdata),
                _ => key.validate_tag(tag, gst, satellite.into(), sender, counter, status, navdata),
            };
            assert!(valid); // the MAC and the tag are zeros
            noted()
        };
        let message = of_mac(MacFunction::HmacSha256);
        assert!(message == of_mac(MacFunction::CmacAes));
        assert!(message.len() == bytes);

        let key = Key::of_zeros(MacFunction::HmacSha256);
        let dummy = match (self.form, counter) {
            (TAG_0, 1) => Some(key.validate_tag0_dummy(tag, gst, sender, status, bits)),
            (TAG_0, _) => None,
            _ => Some(key.validate_tag_dummy(tag, gst, satellite.into(), sender, counter, status, bits)),
        };
        let of_dummy = noted();
        assert!(dummy.is_none() || navdata.any() || of_dummy == message);
        lent[..bytes].copy_from_slice(&message);
        Ok(lent)
    }
}

/// Answers one record with its line; nothing where its kind is unknown.
fn answer(input: &mut Input) -> Result<Option<String>, CutOff> {
    match input.byte()? {
        1 => Ok(Some(match Build::read(input)?.answer() {
            Ok(lent) => {
                let hex: String = lent.iter().map(|byte| format!("{byte:02x}")).collect();
                format!("b 0 {hex}")
            }
            Err(number) => format!("b {number}"),
        })),
        2 => {
            let [_form, _room, n] = input.take()?;
            input.bytes(n.into())?;
            Ok(Some("r -".to_string()))
        }
        _ => Ok(None),
    }
}

fn main() -> std::io::Result<()> {
    watch_panics();
    let mut out = BufWriter::with_capacity(1 << 16, std::io::stdout().lock());
    let mut bytes = Vec::new();
    std::io::stdin().lock().read_to_end(&mut bytes)?;
    let mut input = Input(&bytes);
    while !input.0.is_empty() {
        match answer(&mut input) {
            Ok(Some(line)) => writeln!(out, "{line}")?,
            Ok(None) => {
                writeln!(out, "x 13")?;
                break;
            }
            Err(CutOff) => {
                writeln!(out, "x 14")?;
                break;
            }
        }
    }
    out.flush()
}

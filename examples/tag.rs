//! From the words to an authenticated answer: the message that a tag was made over, what stands here in the place of a MAC, and the tag
//! given with the data of that very message.
use dawnstook::{
    build_message, read_message, room_size, Adkd, Ageing, Form, Gst, Heading, InavBand, InavWord, NmaStatus, Refusal, Store, Svn, Tag,
    CED_BYTES, CED_MESSAGE_BYTES,
};

const ROWS: u8 = 13;
const SLOTS: u8 = 36;
const COP: u8 = 1;
const BITS: u8 = 40;

fn number<T>(result: Result<T, Refusal>) -> u8 {
    result.map_or_else(Refusal::number, |_| 0)
}

fn hex(bytes: &[u8]) -> String {
    bytes.iter().map(|byte| format!("{byte:02x}")).collect()
}

fn word(kind: u8) -> InavWord {
    let mut word = [kind; 16];
    word[0] = kind << 2;
    word
}

/// The sender's side: the message of its tag bit by bit, from its own words. A receiver has none of this, but the tag alone.
fn sent(form: Form, svn: Svn, heading: Heading) -> Vec<u8> {
    let mut bits = Vec::new();
    let mut put = |width: u32, value: u32| bits.extend((0..width).rev().map(|i| (value >> i & 1) as u8));
    if form != Form::Tag0 {
        put(8, svn.into());
    }
    put(8, heading.prna.into());
    put(12, u16::from(heading.gst.wn()).into());
    put(20, heading.gst.tow().into());
    put(8, heading.counter.into());
    put(2, heading.status as u32);
    // the bits of words 1 to 5 behind their type
    for (kind, owned) in (1..).zip([120, 120, 122, 120, 67]) {
        (6..6 + owned).for_each(|i| put(1, (word(kind)[i / 8] >> (7 - i % 8)).into()));
    }
    bits.resize(bits.len().next_multiple_of(8), 0);
    bits.chunks(8).map(|byte| byte.iter().fold(0, |byte, bit| byte << 1 | bit)).collect()
}

/// A STAND-IN. A receiver forms the MAC of the message here, with the key that is disclosed later, cuts it to the tag's length and compares
/// it with the tag. This compares the message with the sender's, has no key and no secret, and authenticates nothing.
fn stand_in_for_the_mac(message: &[u8], sent: &[u8]) -> bool {
    message == sent
}

/// A tag over the data of a satellite has come in the MACK, and the verdict over its message is given with that message's data.
fn receive(store: &mut Store, svn: Svn, form: Form, heading: Heading, sent: &[u8]) -> Result<(), Refusal> {
    let tag = Tag { svn, adkd: Adkd::InavCed, cop: COP, mack: heading.gst };
    let (mut message, mut data) = ([0; CED_MESSAGE_BYTES], [0; CED_BYTES]);
    let shown = store.candidate(tag)?;
    let message = build_message(&mut message, form, heading, shown)?;
    println!("candidate 0, {} bytes; message 0, {} bytes: {}", shown.len(), message.len(), hex(message));
    let right = stand_in_for_the_mac(message, sent);

    let (read, data) = read_message(&mut data, message, form)?;
    let (week, time) = (read.gst.wn().get(), read.gst.tow().get());
    println!("read back 0: by {}, week {week}, time {time}, counter {}, status {}", read.prna, read.counter, read.status as u8);
    let taken = store.tag(Tag { mack: read.gst, ..tag }, BITS, read.status, data, right);
    println!("verdict {}; tag {}, records {}", if right { "yes" } else { "no" }, number(taken), taken.unwrap_or(0));
    Ok(())
}

fn main() -> Result<(), Refusal> {
    let mut room = [0; room_size(ROWS, SLOTS)];
    let (svn, sender, start) = (Svn::try_from(11)?, Svn::try_from(2)?, Gst::try_new(1177, 175_740)?);
    let mut store = Store::new(&mut room, ROWS, SLOTS, Ageing::Time)?;
    println!("fresh 0");
    for kind in 1..=5 {
        let at = start.add_seconds(2 * i32::from(kind))?;
        println!("word {kind}: {}", number(store.feed(&word(kind), svn, at, InavBand::E1B)));
    }

    // The third tag of E02, taken for its second, and rightly.
    let gst = start.add_subframes(1)?;
    let heading = Heading { prnd: Some(svn), prna: sender, gst, counter: 3, status: NmaStatus::Operational };
    let third = sent(Form::Ced, svn, heading);
    receive(&mut store, svn, Form::Ced, Heading { counter: 2, ..heading }, &third)?;
    println!("before the right one: {}", number(store.get_ced_and_status(svn)));
    receive(&mut store, svn, Form::Ced, heading, &third)?;
    // Tag 0 of E11, which is of its own data.
    let own = Heading { prnd: None, prna: svn, counter: 1, ..heading };
    receive(&mut store, svn, Form::Tag0, own, &sent(Form::Tag0, svn, own))?;

    let told = store.get_ced_and_status(svn)?;
    println!("{svn}: 0, {} bits, week {}, time {}: {}", told.authbits(), told.gst().wn().get(), told.gst().tow().get(), hex(told.data()));
    Ok(())
}

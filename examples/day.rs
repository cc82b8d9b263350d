//! A day's start: a fresh store, the words of one satellite, a tag over them, and the authenticated answer.
use dawnstook::{room_size, Adkd, Ageing, Gst, InavBand, NmaStatus, Refusal, Store, Svn, Tag};

const ROWS: u8 = 13;
const SLOTS: u8 = 36;

fn number<T>(result: Result<T, Refusal>) -> u8 {
    result.map_or_else(Refusal::number, |_| 0)
}

fn main() -> Result<(), Refusal> {
    let mut room = [0; room_size(ROWS, SLOTS)];
    let (svn, start) = (Svn::try_from(11)?, Gst::try_new(1177, 175_740)?);
    // A crane stands in a shed at times: what it heard before is then as old as the time says, and not one subframe old.
    let mut store = Store::new(&mut room, ROWS, SLOTS, Ageing::Time)?;
    println!("fresh 0, {} bytes", room_size(ROWS, SLOTS));

    for kind in 1..=5 {
        let mut word = [kind; 16];
        word[0] = kind << 2;
        let at = start.add_seconds(2 * i32::from(kind))?;
        println!("word {kind}: {}", number(store.feed(&word, svn, at, InavBand::E1B)));
    }
    println!("before the tag: {}", number(store.get_ced_and_status(svn)));

    // The tag comes a subframe later. Its data is copied out of the room, and the receiver checks it with the key.
    let tag = Tag { svn, adkd: Adkd::InavCed, cop: 1, mack: start.add_subframes(1)? };
    let data = store.candidate(tag)?.to_vec();
    let records = store.tag(tag, 40, NmaStatus::Operational, &data, true)?;
    println!("candidate 0, {} bytes; tag 0, records {records}", data.len());

    let told = store.get_ced_and_status(svn)?;
    let hex: String = told.data().iter().map(|byte| format!("{byte:02x}")).collect();
    println!("{svn}: 0, {} bits, week {}, time {}: {hex}", told.authbits(), told.gst().wn().get(), told.gst().tow().get());
    println!("reset {}", number(store.reset_authbits()));
    println!("after the reset: {}", number(store.get_ced_and_status(svn)));
    Ok(())
}

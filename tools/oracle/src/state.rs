//! What the oracle and the speed harness share: a storage for each size of store, and the Rust's state in the port's layout.

use crate::Svn;
use crate::navmessage::CollectNavMessage;
use crate::storage::{StaticStorage, StaticStorageTypenum};
use core::marker::PhantomData;
use typenum::{Prod, U1, Unsigned};

/// The storage of depth D for N satellites.
#[derive(Debug, Clone)]
pub struct Size<D, N>(PhantomData<(D, N)>);

impl<D, N> StaticStorage for Size<D, N>
where
    D: StaticStorageTypenum + core::ops::Mul<N>,
    N: Unsigned,
    Prod<D, N>: StaticStorageTypenum,
{
    const NUM_SATS: usize = N::USIZE;
    type NavMessageDepth = D;
    type NavMessageDepthSats = Prod<D, N>;
    type MackDepth = U1; // not used by navmessage.rs
    type MackDepthSats = U1;
}

/// Writes one record of the room: satellite, count, ages, data. Hands back where the next one starts.
fn write_record(
    room: &mut [u8],
    at: usize,
    (svn, count, ages, data): (Option<Svn>, u16, &[u8], &[u8]),
) -> usize {
    room[at] = svn.map_or(0, u8::from);
    room[at + 1..at + 3].copy_from_slice(&count.to_be_bytes());
    let data_at = at + 3 + ages.len();
    room[at + 3..data_at].copy_from_slice(ages);
    room[data_at..data_at + data.len()].copy_from_slice(data);
    data_at + data.len()
}

/// Writes the store as the bytes of the room, in the port's layout. Bytes past its length are not touched.
pub fn write_room<S: StaticStorage>(store: &CollectNavMessage<S>, room: &mut [u8]) {
    let (rows, slots) = (S::NavMessageDepth::USIZE, S::NUM_SATS);
    room[..8].fill(0);
    (room[0], room[1]) = (rows as u8, slots as u8);
    room[2] = store.current_row() as u8;
    let mut at = 8;
    for row in 0..rows {
        room[at..at + 8].fill(0);
        if let Some(gst) = store.subframe(row) {
            room[at] = 1;
            room[at + 1..at + 3].copy_from_slice(&gst.wn().to_be_bytes());
            room[at + 3..at + 7].copy_from_slice(&gst.tow().to_be_bytes());
        }
        at += 8;
        for slot in 0..slots {
            at = write_record(room, at, store.ced(row, slot));
            at = write_record(room, at, store.timing(row, slot));
        }
    }
    assert!(at == 8 + rows * (8 + 100 * slots));
}

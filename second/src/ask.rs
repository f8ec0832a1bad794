//! Ask: opening a request.

use crate::answer::{ensure, Refusal};
use crate::desk::{self, Desk};
use crate::good::is_good;
use crate::sizes::RECORD;

/// Opens a read of `id` and answers the leaf to fetch.
pub fn ask_read(bytes: &mut [u8], id: u16, draw: u16) -> Result<u16, Refusal> {
    may_ask(bytes, id, draw)?;
    Ok(open(bytes, desk::READ, id, draw))
}

/// Opens a write of `id` and answers the leaf to fetch.
pub fn ask_write(bytes: &mut [u8], id: u16, draw: u16, record: &[u8]) -> Result<u16, Refusal> {
    may_ask(bytes, id, draw)?;
    ensure(record.len() == RECORD, Refusal::BadLength)?;
    bytes[desk::REQUEST_RECORD].copy_from_slice(record);
    Ok(open(bytes, desk::WRITE, id, draw))
}

fn may_ask(bytes: &[u8], id: u16, draw: u16) -> Result<(), Refusal> {
    ensure(is_good(bytes), Refusal::BadDesk)?;
    let desk = Desk(bytes);
    ensure(desk.status() <= desk::OPEN, Refusal::Stopped)?;
    ensure(desk.status() == desk::READY, Refusal::Open)?;
    ensure(desk.has_id(id), Refusal::BadId)?;
    ensure(desk.shape().is_leaf(draw), Refusal::BadLeaf)
}

fn open(bytes: &mut [u8], kind: u8, id: u16, draw: u16) -> u16 {
    bytes[desk::STATUS] = desk::OPEN;
    bytes[desk::KIND] = kind;
    desk::set_number(bytes, desk::ID, id);
    desk::set_number(bytes, desk::NEW_LEAF, draw);
    Desk(bytes).position(id)
}

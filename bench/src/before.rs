//! The calls of libbefore.a, the archive of an earlier commit, as `differential::archive` has those of libnolpigat.a.
//! Its functions are named apart, so that both archives link into one program.

use model::image::{LENGTH, OLDER_LENGTH, OLDEST_LENGTH};
use model::Call;

extern "C" {
    fn before_nolpigat_start(image: *mut u8, length: usize, mask: u8) -> u32;
    fn before_nolpigat_begin(image: *mut u8, length: usize, transaction: u8, home: u8) -> u32;
    fn before_nolpigat_get(image: *const u8, length: usize, transaction: u8, record: u16) -> u32;
    fn before_nolpigat_store(image: *mut u8, length: usize, transaction: u8, record: u16, value: u16) -> u32;
    fn before_nolpigat_delete(image: *mut u8, length: usize, transaction: u8, record: u16) -> u32;
    fn before_nolpigat_commit(image: *mut u8, length: usize, transaction: u8) -> u32;
    fn before_nolpigat_rollback(image: *mut u8, length: usize, transaction: u8) -> u32;
    fn before_nolpigat_fit(image: *mut u8, length: usize, card: u8) -> u32;
    fn before_nolpigat_withdraw(image: *mut u8, length: usize, card: u8) -> u32;
    fn before_nolpigat_place(image: *mut u8, length: usize, mask: u8) -> u32;
    fn before_nolpigat_fail(image: *mut u8, length: usize, card: u8) -> u32;
    fn before_nolpigat_move(image: *mut u8, length: usize, card: u8, block: u8) -> u32;
    fn before_nolpigat_settle(image: *mut u8, length: usize) -> u32;
    fn before_nolpigat_state(image: *const u8, length: usize) -> u32;
    fn before_nolpigat_load(image: *const u8, length: usize, card: u8) -> u32;
    fn before_nolpigat_move_list(image: *const u8, image_length: usize, list: *mut u8, list_length: usize) -> u32;
    #[cfg(before_tables)]
    fn before_nolpigat_place_by_table(image: *mut u8, length: usize, lines: *const u8, lines_length: usize) -> u32;
}

/// The length of the archive's images: it refuses a start on another.
pub fn length() -> usize {
    let takes = |length: &usize| perform(&mut vec![0; *length], &Call::Start { mask: 0xFF }) == 0;
    [OLDEST_LENGTH, OLDER_LENGTH, LENGTH].into_iter().find(takes).expect("an archive of this store")
}

/// The code of the archive's answer. A block is a byte there.
pub fn perform(image: &mut [u8], call: &Call) -> u32 {
    let (at, length) = (image.as_mut_ptr(), image.len());
    // The pointer and the length are those of a slice that is lent for the call alone.
    unsafe {
        match *call {
            Call::Start { mask } => before_nolpigat_start(at, length, mask),
            Call::Begin { transaction, home } => before_nolpigat_begin(at, length, transaction, home),
            Call::Get { transaction, record } => before_nolpigat_get(at, length, transaction, record),
            Call::Store { transaction, record, value } => before_nolpigat_store(at, length, transaction, record, value),
            Call::Delete { transaction, record } => before_nolpigat_delete(at, length, transaction, record),
            Call::Commit { transaction } => before_nolpigat_commit(at, length, transaction),
            Call::Rollback { transaction } => before_nolpigat_rollback(at, length, transaction),
            Call::Fit { card } => before_nolpigat_fit(at, length, card),
            Call::Withdraw { card } => before_nolpigat_withdraw(at, length, card),
            Call::Place { mask } => before_nolpigat_place(at, length, mask),
            Call::Fail { card } => before_nolpigat_fail(at, length, card),
            Call::Move { card, block } => {
                before_nolpigat_move(at, length, card, block.try_into().expect("a block of one byte"))
            }
            Call::Settle => before_nolpigat_settle(at, length),
            Call::State => before_nolpigat_state(at, length),
            Call::Load { card } => before_nolpigat_load(at, length, card),
        }
    }
}

/// The code of the archive's answer to a lent list, whose entries are two bytes, card and block.
pub fn move_list(image: &[u8], list: &mut [u8]) -> u32 {
    // Both slices are lent for the call alone, and they do not overlap.
    unsafe { before_nolpigat_move_list(image.as_ptr(), image.len(), list.as_mut_ptr(), list.len()) }
}

/// The code of the archive's answer to a placing by table.
#[cfg(before_tables)]
pub fn place_by_table(image: &mut [u8], lines: &[u8]) -> u32 {
    // Both slices are lent for the call alone, and they do not overlap.
    unsafe { before_nolpigat_place_by_table(image.as_mut_ptr(), image.len(), lines.as_ptr(), lines.len()) }
}

/// An archive from before tables: no case asks it.
#[cfg(not(before_tables))]
pub fn place_by_table(_: &mut [u8], _: &[u8]) -> u32 {
    unreachable!("the archive has no tables")
}

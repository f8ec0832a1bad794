//! The proved static library behind its C interface.

use crate::format::Sizes;
use crate::row::{Asked, Counts};
use crate::store::{Sheet, Store};

extern "C" {
    fn bawnaroy_format(
        desk: *mut u8,
        desk_len: usize,
        height: u8,
        slots: u8,
        stash: u8,
        ids: u16,
        key: *const u8,
        key_len: usize,
        leaves: *const u16,
        leaves_len: usize,
    ) -> i32;
    fn bawnaroy_ask_read(desk: *mut u8, desk_len: usize, id: u16, leaf: u16) -> i32;
    fn bawnaroy_ask_write(
        desk: *mut u8,
        desk_len: usize,
        id: u16,
        leaf: u16,
        record: *const u8,
        record_len: usize,
    ) -> i32;
    fn bawnaroy_finish(
        desk: *mut u8,
        desk_len: usize,
        path: *mut u8,
        path_len: usize,
        record: *mut u8,
        record_len: usize,
    ) -> i32;
    fn bawnaroy_fetch(
        tree: *const u8,
        tree_len: usize,
        height: u8,
        slots: u8,
        leaf: u16,
        path: *mut u8,
        path_len: usize,
    ) -> i32;
    fn bawnaroy_put(
        tree: *mut u8,
        tree_len: usize,
        height: u8,
        slots: u8,
        leaf: u16,
        path: *const u8,
        path_len: usize,
    ) -> i32;
    fn bawnaroy_desk_length(ids: u16, stash: u8) -> usize;
    fn bawnaroy_path_length(height: u8, slots: u8) -> usize;
    fn bawnaroy_tree_length(height: u8, slots: u8) -> usize;
    fn bawnaroy_sha256(msg: *const u8, len: usize, out: *mut u8);
    fn bawnaroy_chacha20(key: *const u8, nonce: *const u8, text: *mut u8, len: usize);
    fn bawnaroy_verdict_read(record: *const u8, record_len: usize, said: *mut u16) -> i32;
    fn bawnaroy_verdict_make(
        record: *mut u8,
        record_len: usize,
        verdict: u8,
        chapter: u8,
        year: u16,
        name: *const u8,
        name_len: usize,
    ) -> i32;
    fn bawnaroy_row(
        desk: *mut u8,
        desk_len: usize,
        tree: *mut u8,
        tree_len: usize,
        chapter: u8,
        first: u16,
        end: u16,
        draws: *const u16,
        draws_len: usize,
        counts: *mut u16,
    ) -> i32;
    fn bawnaroy_tap_room(n: u16) -> usize;
    fn bawnaroy_tap_read(
        desk: *mut u8,
        desk_len: usize,
        tree: *mut u8,
        tree_len: usize,
        chapter: u8,
        year: u16,
        first: u16,
        end: u16,
        draws: *const u16,
        draws_len: usize,
        text: *const u8,
        text_len: usize,
        line: *mut u64,
    ) -> i32;
    fn bawnaroy_tap_write(
        desk: *mut u8,
        desk_len: usize,
        tree: *mut u8,
        tree_len: usize,
        chapter: u8,
        first: u16,
        end: u16,
        draws: *const u16,
        draws_len: usize,
        out: *mut u8,
        out_len: usize,
    ) -> i32;
}

/// The library. Every call below hands over whole slices with their own
/// lengths, which is all that the C interface asks for.
pub struct Library;

impl Store for Library {
    fn format(&self, desk: &mut [u8], sizes: Sizes, key: &[u8], leaves: &[u16]) -> i32 {
        unsafe {
            bawnaroy_format(
                desk.as_mut_ptr(),
                desk.len(),
                sizes.height,
                sizes.slots,
                sizes.stash,
                sizes.ids,
                key.as_ptr(),
                key.len(),
                leaves.as_ptr(),
                leaves.len(),
            )
        }
    }

    fn ask_read(&self, desk: &mut [u8], id: u16, leaf: u16) -> i32 {
        unsafe { bawnaroy_ask_read(desk.as_mut_ptr(), desk.len(), id, leaf) }
    }

    fn ask_write(&self, desk: &mut [u8], id: u16, leaf: u16, record: &[u8]) -> i32 {
        let (to, from) = (desk.as_mut_ptr(), record.as_ptr());
        unsafe { bawnaroy_ask_write(to, desk.len(), id, leaf, from, record.len()) }
    }

    fn finish(&self, desk: &mut [u8], path: &mut [u8], record: &mut [u8]) -> i32 {
        unsafe {
            bawnaroy_finish(
                desk.as_mut_ptr(),
                desk.len(),
                path.as_mut_ptr(),
                path.len(),
                record.as_mut_ptr(),
                record.len(),
            )
        }
    }

    fn fetch(&self, tree: &[u8], height: u8, slots: u8, leaf: u16, path: &mut [u8]) -> i32 {
        let (from, to) = (tree.as_ptr(), path.as_mut_ptr());
        unsafe { bawnaroy_fetch(from, tree.len(), height, slots, leaf, to, path.len()) }
    }

    fn put(&self, tree: &mut [u8], height: u8, slots: u8, leaf: u16, path: &[u8]) -> i32 {
        let (to, from) = (tree.as_mut_ptr(), path.as_ptr());
        unsafe { bawnaroy_put(to, tree.len(), height, slots, leaf, from, path.len()) }
    }

    fn desk_length(&self, ids: u16, stash: u8) -> usize {
        unsafe { bawnaroy_desk_length(ids, stash) }
    }

    fn path_length(&self, height: u8, slots: u8) -> usize {
        unsafe { bawnaroy_path_length(height, slots) }
    }

    fn tree_length(&self, height: u8, slots: u8) -> usize {
        unsafe { bawnaroy_tree_length(height, slots) }
    }

    fn sha256(&self, message: &[u8], out: &mut [u8; 32]) {
        unsafe { bawnaroy_sha256(message.as_ptr(), message.len(), out.as_mut_ptr()) }
    }

    fn chacha20(&self, key: &[u8; 32], nonce: &[u8; 12], text: &mut [u8]) {
        unsafe { bawnaroy_chacha20(key.as_ptr(), nonce.as_ptr(), text.as_mut_ptr(), text.len()) }
    }

    fn verdict_read(&self, record: &[u8], said: &mut [u16; 3]) -> i32 {
        unsafe { bawnaroy_verdict_read(record.as_ptr(), record.len(), said.as_mut_ptr()) }
    }

    fn verdict_make(
        &self,
        record: &mut [u8],
        verdict: u8,
        chapter: u8,
        year: u16,
        name: &[u8],
    ) -> i32 {
        unsafe {
            bawnaroy_verdict_make(
                record.as_mut_ptr(),
                record.len(),
                verdict,
                chapter,
                year,
                name.as_ptr(),
                name.len(),
            )
        }
    }

    fn row(
        &self,
        desk: &mut [u8],
        tree: &mut [u8],
        asked: Asked,
        draws: &[u16],
        counts: &mut Counts,
    ) -> i32 {
        unsafe {
            bawnaroy_row(
                desk.as_mut_ptr(),
                desk.len(),
                tree.as_mut_ptr(),
                tree.len(),
                asked.chapter,
                asked.first,
                asked.end,
                draws.as_ptr(),
                draws.len(),
                counts.as_mut_ptr(),
            )
        }
    }

    fn tap_room(&self, count: u16) -> usize {
        unsafe { bawnaroy_tap_room(count) }
    }

    fn tap_read(
        &self,
        desk: &mut [u8],
        tree: &mut [u8],
        sheet: Sheet,
        draws: &[u16],
        text: &[u8],
        line: &mut [u64; 1],
    ) -> i32 {
        unsafe {
            bawnaroy_tap_read(
                desk.as_mut_ptr(),
                desk.len(),
                tree.as_mut_ptr(),
                tree.len(),
                sheet.asked.chapter,
                sheet.year,
                sheet.asked.first,
                sheet.asked.end,
                draws.as_ptr(),
                draws.len(),
                text.as_ptr(),
                text.len(),
                line.as_mut_ptr(),
            )
        }
    }

    fn tap_write(
        &self,
        desk: &mut [u8],
        tree: &mut [u8],
        asked: Asked,
        draws: &[u16],
        out: &mut [u8],
    ) -> i32 {
        unsafe {
            bawnaroy_tap_write(
                desk.as_mut_ptr(),
                desk.len(),
                tree.as_mut_ptr(),
                tree.len(),
                asked.chapter,
                asked.first,
                asked.end,
                draws.as_ptr(),
                draws.len(),
                out.as_mut_ptr(),
                out.len(),
            )
        }
    }
}

//! The library under test, by its C names.

use crate::slices::Lent;
use second::call::{Call, Numbers};
use second::store::Pitch;

#[repr(C)]
struct CReply {
    code: u64,
    first: u64,
    second: u64,
}

type Words = *mut u64;
type Entries = *mut Pitch;
type Table = *const Pitch;

extern "C" {
    fn rahuvyte_make(
        store: Words,
        store_len: usize,
        entries: Entries,
        entries_len: usize,
        table: Table,
        table_len: usize,
        kind: u16,
        readers: u16,
        publishers: u16,
        slots: u16,
        version: u64,
    ) -> CReply;
    fn rahuvyte_enter(store: Words, sl: usize, entries: Entries, el: usize, r: u16) -> CReply;
    fn rahuvyte_look(
        store: *const u64,
        sl: usize,
        entries: *const Pitch,
        el: usize,
        r: u16,
        k: u16,
    ) -> CReply;
    fn rahuvyte_leave(store: Words, sl: usize, entries: Entries, el: usize, r: u16) -> CReply;
    fn rahuvyte_claim(
        store: Words,
        sl: usize,
        entries: Entries,
        el: usize,
        p: u16,
        slot: u16,
    ) -> CReply;
    fn rahuvyte_write(
        store: Words,
        sl: usize,
        entries: Entries,
        el: usize,
        p: u16,
        v: Pitch,
    ) -> CReply;
    fn rahuvyte_swap(store: Words, sl: usize, entries: Entries, el: usize, p: u16) -> CReply;
    fn rahuvyte_sync(store: Words, sl: usize, entries: Entries, el: usize, p: u16) -> CReply;
    fn rahuvyte_raise(store: Words, sl: usize, entries: Entries, el: usize, p: u16) -> CReply;
    fn rahuvyte_walk(
        store: Words,
        sl: usize,
        entries: Entries,
        el: usize,
        p: u16,
        b: u16,
    ) -> CReply;
    fn rahuvyte_release(store: Words, sl: usize, entries: Entries, el: usize, p: u16) -> CReply;
    fn rahuvyte_pick(store: Words, sl: usize, entries: Entries, el: usize, r: u16) -> CReply;
    fn rahuvyte_checkpoint(store: Words, sl: usize, entries: Entries, el: usize, r: u16) -> CReply;
    fn rahuvyte_defer(store: Words, sl: usize, entries: Entries, el: usize, p: u16) -> CReply;
}

/// Calls the library with these slices.
///
/// # Safety
/// Each pointer is null with length 0, or lends that many cells.
pub unsafe fn call(lent: Lent, call: &Call) -> Numbers {
    let (w, wl) = (lent.words, lent.words_length);
    let (e, el) = (lent.entries, lent.entries_length);
    let (t, tl) = (lent.table, lent.table_length);
    let reply = match *call {
        Call::Make {
            kind,
            readers,
            publishers,
            slots,
            version,
        } => rahuvyte_make(
            w, wl, e, el, t, tl, kind, readers, publishers, slots, version,
        ),
        Call::Enter { r } => rahuvyte_enter(w, wl, e, el, r),
        Call::Look { r, k } => rahuvyte_look(w, wl, e, el, r, k),
        Call::Leave { r } => rahuvyte_leave(w, wl, e, el, r),
        Call::Claim { p, s } => rahuvyte_claim(w, wl, e, el, p, s),
        Call::Write { p, v } => rahuvyte_write(w, wl, e, el, p, v),
        Call::Swap { p } => rahuvyte_swap(w, wl, e, el, p),
        Call::Sync { p } => rahuvyte_sync(w, wl, e, el, p),
        Call::Raise { p } => rahuvyte_raise(w, wl, e, el, p),
        Call::Walk { p, b } => rahuvyte_walk(w, wl, e, el, p, b),
        Call::Release { p } => rahuvyte_release(w, wl, e, el, p),
        Call::Pick { r } => rahuvyte_pick(w, wl, e, el, r),
        Call::Checkpoint { r } => rahuvyte_checkpoint(w, wl, e, el, r),
        Call::Defer { p } => rahuvyte_defer(w, wl, e, el, p),
    };
    Numbers {
        code: reply.code,
        first: reply.first,
        second: reply.second,
    }
}

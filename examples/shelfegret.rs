//! The library for Rust: the structs of include/shelfegret.h, and each call with slices in the place of pointers.
//! A call answers, or says why it refuses; then no lent byte has changed.

/// The settings of a table, as include/shelfegret.h explains them.
#[repr(C)]
#[derive(Clone, Copy, Debug, PartialEq, Eq)]
pub struct Settings {
    pub w: u32,
    pub bii: u32,
    pub sib: u32,
    pub nob: u32,
    pub sio: u32,
    pub val: u32,
    pub a: u32,
    pub b: u32,
}

/// The number high * 2^64 + low.
#[repr(C)]
#[derive(Clone, Copy, Debug, PartialEq, Eq)]
pub struct Key {
    pub high: u64,
    pub low: u64,
}

impl From<u128> for Key {
    fn from(n: u128) -> Key {
        Key { high: (n >> 64) as u64, low: n as u64 }
    }
}

impl From<Key> for u128 {
    fn from(key: Key) -> u128 {
        (key.high as u128) << 64 | key.low as u128
    }
}

#[repr(C)]
#[derive(Clone, Copy, Debug, PartialEq, Eq)]
pub struct Answer {
    code: u32,
    word: u32,
    pub key: Key,
    pub label: u32,
    pub compared: u32,
    pub number: u64,
}

#[derive(Clone, Copy, Debug, PartialEq, Eq)]
pub enum Word {
    Added,
    Held,
    Gone,
    None,
    Record,
    Sound,
    Unsound,
    Relabelled,
}

#[derive(Clone, Copy, Debug, PartialEq, Eq)]
pub enum Refusal {
    Settings = 1,
    Short,
    Width,
    Text,
    Key,
    Label,
    Damage,
    Full,
    Output,
    Marks,
    Known = 12, // 11 is the program's alone
    Page,
    Slot,
}

impl Answer {
    /// What the call says; nothing where it has no word.
    pub fn word(&self) -> Option<Word> {
        use Word::*;
        let all = [Added, Held, Gone, None, Record, Sound, Unsound, Relabelled];
        all.get((self.word as usize).wrapping_sub(1)).copied()
    }

    fn or_refusal(self) -> Result<Answer, Refusal> {
        use Refusal::*;
        let all = [Settings, Short, Width, Text, Key, Label, Damage, Full, Output, Marks];
        match self.code {
            0 => Ok(self),
            12 => Err(Known),
            13 => Err(Page),
            14 => Err(Slot),
            code => Err(all[code as usize - 1]),
        }
    }
}

mod c {
    use super::{Answer, Key, Settings};

    extern "C" {
        pub fn shelfegret_size(s: Settings) -> Answer;
        pub fn shelfegret_make(s: Settings, table: *mut u8, len: usize) -> Answer;
        pub fn shelfegret_enter(s: Settings, table: *mut u8, len: usize, key: Key, label: u64) -> Answer;
        pub fn shelfegret_relabel(s: Settings, table: *mut u8, len: usize, key: Key, label: u64) -> Answer;
        pub fn shelfegret_find(s: Settings, table: *const u8, len: usize, key: Key) -> Answer;
        pub fn shelfegret_delete(s: Settings, table: *mut u8, len: usize, key: Key) -> Answer;
        pub fn shelfegret_record(s: Settings, table: *const u8, len: usize, n: u64) -> Answer;
        pub fn shelfegret_retrieve(s: Settings, table: *const u8, len: usize, slot: u64) -> Answer;
        pub fn shelfegret_check(s: Settings, table: *const u8, len: usize, marks: *mut u8, marks_len: usize) -> Answer;
        pub fn shelfegret_enter_text(
            s: Settings,
            table: *mut u8,
            len: usize,
            text: *const u8,
            text_len: usize,
            label: u64,
        ) -> Answer;
        pub fn shelfegret_relabel_text(
            s: Settings,
            table: *mut u8,
            len: usize,
            text: *const u8,
            text_len: usize,
            label: u64,
        ) -> Answer;
        pub fn shelfegret_find_text(
            s: Settings,
            table: *const u8,
            len: usize,
            text: *const u8,
            text_len: usize,
        ) -> Answer;
        pub fn shelfegret_delete_text(
            s: Settings,
            table: *mut u8,
            len: usize,
            text: *const u8,
            text_len: usize,
        ) -> Answer;
        pub fn shelfegret_read_text(text: *const u8, text_len: usize) -> Answer;
        pub fn shelfegret_write_text(key: Key, out: *mut u8, out_len: usize) -> Answer;
        pub fn shelfegret_page(
            s: Settings,
            table: *const u8,
            len: usize,
            page: u64,
            out: *mut u8,
            out_len: usize,
        ) -> Answer;
    }
}

// Safety of every call below: whatever the arguments are, the library stays within the lent bytes. These are slices, so
// they are there, and those that are written overlap with no other.

pub fn size(s: Settings) -> Result<Answer, Refusal> {
    unsafe { c::shelfegret_size(s) }.or_refusal()
}

pub fn make(s: Settings, table: &mut [u8]) -> Result<Answer, Refusal> {
    unsafe { c::shelfegret_make(s, table.as_mut_ptr(), table.len()) }.or_refusal()
}

pub fn enter(s: Settings, table: &mut [u8], key: Key, label: u64) -> Result<Answer, Refusal> {
    unsafe { c::shelfegret_enter(s, table.as_mut_ptr(), table.len(), key, label) }.or_refusal()
}

pub fn relabel(s: Settings, table: &mut [u8], key: Key, label: u64) -> Result<Answer, Refusal> {
    unsafe { c::shelfegret_relabel(s, table.as_mut_ptr(), table.len(), key, label) }.or_refusal()
}

pub fn find(s: Settings, table: &[u8], key: Key) -> Result<Answer, Refusal> {
    unsafe { c::shelfegret_find(s, table.as_ptr(), table.len(), key) }.or_refusal()
}

pub fn delete(s: Settings, table: &mut [u8], key: Key) -> Result<Answer, Refusal> {
    unsafe { c::shelfegret_delete(s, table.as_mut_ptr(), table.len(), key) }.or_refusal()
}

pub fn record(s: Settings, table: &[u8], n: u64) -> Result<Answer, Refusal> {
    unsafe { c::shelfegret_record(s, table.as_ptr(), table.len(), n) }.or_refusal()
}

/// What stands in a slot. `enter`, `relabel` and `find` answer its number, which is good until a key is deleted.
pub fn retrieve(s: Settings, table: &[u8], slot: u64) -> Result<Answer, Refusal> {
    unsafe { c::shelfegret_retrieve(s, table.as_ptr(), table.len(), slot) }.or_refusal()
}

pub fn check(s: Settings, table: &[u8], marks: &mut [u8]) -> Result<Answer, Refusal> {
    unsafe { c::shelfegret_check(s, table.as_ptr(), table.len(), marks.as_mut_ptr(), marks.len()) }.or_refusal()
}

pub fn enter_text(s: Settings, table: &mut [u8], text: &[u8], label: u64) -> Result<Answer, Refusal> {
    unsafe { c::shelfegret_enter_text(s, table.as_mut_ptr(), table.len(), text.as_ptr(), text.len(), label) }
        .or_refusal()
}

pub fn relabel_text(s: Settings, table: &mut [u8], text: &[u8], label: u64) -> Result<Answer, Refusal> {
    unsafe { c::shelfegret_relabel_text(s, table.as_mut_ptr(), table.len(), text.as_ptr(), text.len(), label) }
        .or_refusal()
}

pub fn find_text(s: Settings, table: &[u8], text: &[u8]) -> Result<Answer, Refusal> {
    unsafe { c::shelfegret_find_text(s, table.as_ptr(), table.len(), text.as_ptr(), text.len()) }.or_refusal()
}

pub fn delete_text(s: Settings, table: &mut [u8], text: &[u8]) -> Result<Answer, Refusal> {
    unsafe { c::shelfegret_delete_text(s, table.as_mut_ptr(), table.len(), text.as_ptr(), text.len()) }.or_refusal()
}

pub fn read_text(text: &[u8]) -> Result<Answer, Refusal> {
    unsafe { c::shelfegret_read_text(text.as_ptr(), text.len()) }.or_refusal()
}

pub fn write_text(key: Key, out: &mut [u8]) -> Result<Answer, Refusal> {
    unsafe { c::shelfegret_write_text(key, out.as_mut_ptr(), out.len()) }.or_refusal()
}

/// The bytes that `page` must be lent, however few it writes.
pub const PAGE_BYTES: usize = 2091;

pub fn page(s: Settings, table: &[u8], n: u64, out: &mut [u8]) -> Result<Answer, Refusal> {
    unsafe { c::shelfegret_page(s, table.as_ptr(), table.len(), n, out.as_mut_ptr(), out.len()) }.or_refusal()
}

//! blocklist.c in Rust, with the same output.
//!
//!     rustc --edition 2021 -L target/staticlib -l static=shelfegret examples/blocklist.rs

#[allow(dead_code)] // the module has every call, this program uses some
mod shelfegret;

use shelfegret::{Answer, Key, Refusal, Settings, Word};

/// Addresses of 128 bits with labels of 8; 2^4 lists with room for 4 entries each, and 8 shared blocks for 3 each.
const SETTINGS: Settings = Settings { w: 128, bii: 4, sib: 4, nob: 8, sio: 3, val: 8, a: 11, b: 5 };

fn lower<T: std::fmt::Debug>(name: T) -> String {
    format!("{name:?}").to_lowercase()
}

fn address(key: Key) -> String {
    let mut text = [0; 39];
    let length = shelfegret::write_text(key, &mut text).map_or(0, |written| written.number as usize);
    String::from_utf8_lossy(&text[..length]).into_owned()
}

fn print_answer(result: Result<Answer, Refusal>) {
    match result {
        Ok(a) => {
            let word = a.word().map_or("-".into(), lower);
            print!("{} {}, label {}, compared {}", address(a.key), word, a.label, a.compared);
            if let Some(Word::Added | Word::Held | Word::Relabelled) = a.word() {
                print!(", slot {}", a.number); // with other words the number is 0, and 0 is a slot too
            }
            println!();
        }
        Err(why) => println!("refused {}, {}", why as u32, lower(why)),
    }
}

fn block(table: &mut [u8], text: &str, label: u64) {
    print!("block {text} -> ");
    print_answer(shelfegret::enter_text(SETTINGS, table, text.as_bytes(), label));
}

fn relabel(table: &mut [u8], text: &str, label: u64) {
    print!("relabel {text} -> ");
    print_answer(shelfegret::relabel_text(SETTINGS, table, text.as_bytes(), label));
}

fn unblock(table: &mut [u8], text: &str) {
    print!("unblock {text} -> ");
    print_answer(shelfegret::delete_text(SETTINGS, table, text.as_bytes()));
}

/// An address as it stands in a packet is a key without any text.
fn look_up(table: &[u8], source: [u8; 16]) {
    print!("packet from ");
    print_answer(shelfegret::find(SETTINGS, table, u128::from_be_bytes(source).into()));
}

/// What stands in a slot. Its number is good until the next address is unblocked.
fn print_slot(table: &[u8], slot: u64) {
    print!("slot {slot} -> ");
    print_answer(shelfegret::retrieve(SETTINGS, table, slot));
}

fn print_all(table: &[u8]) {
    for n in 0.. {
        match shelfegret::record(SETTINGS, table, n) {
            Ok(a) if a.word() == Some(Word::Record) => println!("record {n}: {} label {}", address(a.key), a.label),
            _ => break,
        }
    }
}

fn print_sheet(table: &[u8]) {
    let mut page = [0; shelfegret::PAGE_BYTES];
    for n in 1.. {
        print!("page {n}: ");
        let result = shelfegret::page(SETTINGS, table, n, &mut page);
        let Ok(a) = result else { return print_answer(result) };
        print!("{} bytes\n{}", a.number, String::from_utf8_lossy(&page[..a.number as usize]));
    }
}

fn print_check(table: &[u8]) {
    let mut marks = [0; 1]; // a bit for each shared block
    match shelfegret::check(SETTINGS, table, &mut marks) {
        Ok(a) => println!("check: {}", a.word().map_or("-".into(), lower)),
        Err(why) => println!("check: {}", lower(why)),
    }
}

fn main() -> Result<(), Refusal> {
    let mut table = [0; 1468];
    println!("size: {} bytes, {} lent", shelfegret::size(SETTINGS)?.number, table.len());
    shelfegret::make(SETTINGS, &mut table)?;

    block(&mut table, "2001:DB8:0:0::1", 7); // three spellings of one address: one entry
    block(&mut table, "2001:db8::1", 8); // refused: it is known, and keeps its label
    relabel(&mut table, "2001:0db8:0000:0000:0000:0000:0.0.0.1", 9);
    relabel(&mut table, "2001:db8::2", 9); // one that is not blocked has no label
    block(&mut table, "fe80::1", 1);
    block(&mut table, "192.0.2.1", 2); // an IPv4 device is one entry too: ::ffff:192.0.2.1,
    relabel(&mut table, "::ffff:c000:201", 3); // however it is spelled
    print_all(&table);
    print_sheet(&table);

    look_up(&table, [0x20, 0x01, 0x0d, 0xb8, 0, 0, 0, 0, 0, 0, 0, 0, 0, 0, 0, 1]);
    look_up(&table, [0x20, 0x01, 0x0d, 0xb8, 0, 0, 0, 0, 0, 0, 0, 0, 0, 0, 0, 2]);
    look_up(&table, [0, 0, 0, 0, 0, 0, 0, 0, 0, 0, 0xff, 0xff, 192, 0, 2, 1]); // as a socket for both families gives it
    print_slot(&table, 0); // the first slot of the first list is vacant
    print_slot(&table, 12); // the one that was answered for 2001:db8::1
    print_slot(&table, 88); // there are 4 * 2^4 + 3 * 8 slots, and they are counted from 0
    unblock(&mut table, "FE80:0::1");
    unblock(&mut table, "fe80::1");

    block(&mut table, "1::2::3", 1); // no address
    block(&mut table, "2001:db8::3", 256); // a label of more than 8 bits

    print_check(&table);
    table[0] ^= 0x20; // a bit tips over in memory
    print_check(&table);
    Ok(())
}

//! What Rust's standard library has, timed as the C drivers do it.
//!   rust text FILE TAIL BARE ROUNDS    ns of parse and to_string of Ipv6Addr, on the lines of FILE; of its parse, on
//!                                      those of TAIL; of Ipv4Addr's parse, on those of BARE, and of to_string of these
//!                                      as mapped IPv6 addresses
//!   rust map FILE ROUNDS               a row of the peers' table: HashMap from the addresses in FILE to their labels
use std::alloc::{GlobalAlloc, Layout, System};
use std::collections::HashMap;
use std::fmt::Debug;
use std::hint::black_box;
use std::net::{Ipv4Addr, Ipv6Addr};
use std::str::FromStr;
use std::sync::atomic::{AtomicBool, AtomicUsize, Ordering::Relaxed};

const CHUNK: usize = 64;

// ---- heap bytes of the blocks in use, malloc's own word included; counted only on demand, since it takes time ----

static COUNTING: AtomicBool = AtomicBool::new(false);
static HEAP_BYTES: AtomicUsize = AtomicUsize::new(0);
static PEAK: AtomicUsize = AtomicUsize::new(0);
struct Counting;

extern "C" {
    fn malloc_usable_size(block: *mut u8) -> usize;
    fn clock_gettime(id: i32, time: *mut [i64; 2]) -> i32;
}

fn weight(block: *mut u8) -> usize {
    unsafe { malloc_usable_size(block) + size_of::<usize>() }
}

unsafe impl GlobalAlloc for Counting {
    unsafe fn alloc(&self, layout: Layout) -> *mut u8 {
        let block = System.alloc(layout);
        if COUNTING.load(Relaxed) {
            let before = HEAP_BYTES.fetch_add(weight(block), Relaxed);
            PEAK.fetch_max(before + weight(block), Relaxed);
        }
        block
    }
    unsafe fn dealloc(&self, block: *mut u8, layout: Layout) {
        if COUNTING.load(Relaxed) {
            HEAP_BYTES.fetch_sub(weight(block), Relaxed);
        }
        System.dealloc(block, layout)
    }
}

#[global_allocator]
static HEAP: Counting = Counting;

// ---- clocks and medians ----

const WALL: i32 = 1; // CLOCK_MONOTONIC
const PROCESSOR: i32 = 2; // CLOCK_PROCESS_CPUTIME_ID

fn now(clock: i32) -> f64 {
    let mut time = [0, 0];
    unsafe { clock_gettime(clock, &mut time) };
    time[0] as f64 * 1e9 + time[1] as f64
}

fn median(mut values: Vec<f64>) -> f64 {
    values.sort_by(f64::total_cmp);
    values[values.len() / 2]
}

struct Random(u64);

impl Random {
    fn below(&mut self, bound: usize) -> usize {
        self.0 ^= self.0 >> 12;
        self.0 ^= self.0 << 25;
        self.0 ^= self.0 >> 27;
        (self.0.wrapping_mul(2685821657736338717) >> 11) as usize % bound
    }
}

/// The median ns of one of `rounds` chunks of `items`, for each item.
fn time_chunks<T>(items: &[T], rounds: usize, mut run: impl FnMut(&T)) -> f64 {
    let mut random = Random(88172645463325252);
    let mut times = Vec::new();
    for _ in 0..rounds {
        let at = random.below(items.len() - CHUNK + 1);
        let start = now(WALL);
        items[at..at + CHUNK].iter().for_each(&mut run);
        times.push((now(WALL) - start) / CHUNK as f64);
    }
    median(times)
}

// ---- text ----

/// The addresses in the file, and the ns of reading one.
fn time_read<A: FromStr>(file: &str, rounds: usize) -> (Vec<A>, f64)
where
    A::Err: Debug,
{
    let texts: Vec<&str> = file.lines().collect();
    let read = time_chunks(&texts, rounds, |t| {
        let _ = black_box(t.parse::<A>());
    });
    (texts.iter().map(|t| t.parse().expect("an address")).collect(), read)
}

fn time_write(addresses: &[Ipv6Addr], rounds: usize) -> f64 {
    for address in addresses {
        assert_eq!(address.to_string().parse(), Ok(*address));
    }
    time_chunks(addresses, rounds, |a| {
        black_box(a.to_string());
    })
}

fn text(file: &str, tail: &str, bare: &str, rounds: usize) {
    let (addresses, read) = time_read::<Ipv6Addr>(file, rounds);
    let write = time_write(&addresses, rounds);
    let (_, read_tail) = time_read::<Ipv6Addr>(tail, rounds);
    let (of_ipv4, read_bare) = time_read::<Ipv4Addr>(bare, rounds);
    let mapped: Vec<Ipv6Addr> = of_ipv4.iter().map(Ipv4Addr::to_ipv6_mapped).collect();
    let write_mapped = time_write(&mapped, rounds);
    println!("{read:.1} {write:.1} {read_tail:.1} {read_bare:.1} {write_mapped:.1}");
}

// ---- map ----

type Entry = (Ipv6Addr, Option<u8>);

fn entry(line: &str) -> Entry {
    let (address, label) = line.split_once(' ').expect("two words");
    (address.parse().expect("an address"), label.parse().ok())
}

fn filled(held: &[Entry]) -> HashMap<Ipv6Addr, u8> {
    let mut map = HashMap::new();
    for (address, label) in held {
        map.insert(*address, label.expect("a label"));
    }
    map
}

fn time_fill(held: &[Entry], rounds: usize) -> f64 {
    let mut times = Vec::new();
    for _ in 0..rounds {
        let start = now(PROCESSOR);
        let map = filled(held);
        times.push((now(PROCESSOR) - start) / held.len() as f64);
        black_box(map);
    }
    median(times)
}

fn map(file: &str, rounds: usize) {
    let (held, others): (Vec<Entry>, Vec<Entry>) = file.lines().map(entry).partition(|e| e.1.is_some());
    COUNTING.store(true, Relaxed);
    let map = filled(&held);
    COUNTING.store(false, Relaxed);
    let mut find = |e: &Entry| assert_eq!(black_box(map.get(&e.0)).copied(), e.1);
    let hit = time_chunks(&held, rounds, &mut find);
    let miss = time_chunks(&others, rounds, &mut find);
    let insert = time_fill(&held, (rounds * CHUNK / held.len()).max(5));
    let n = held.len();
    let each = |bytes: &AtomicUsize| bytes.load(Relaxed) as f64 / n as f64;
    let (bytes, peak) = (each(&HEAP_BYTES), each(&PEAK));
    println!("| {n} | Rust's HashMap | {hit:.0} | {miss:.0} | {insert:.0} | {bytes:.1} | {peak:.1} |");
}

fn main() {
    let words: Vec<String> = std::env::args().collect();
    let words: Vec<&str> = words.iter().map(String::as_str).collect();
    let read = |path| std::fs::read_to_string(path).expect("the list");
    match words[1..] {
        ["text", path, tail, bare, rounds] => {
            text(&read(path), &read(tail), &read(bare), rounds.parse().expect("rounds"))
        }
        ["map", path, rounds] => map(&read(path), rounds.parse().expect("rounds")),
        _ => panic!("rust text FILE TAIL BARE ROUNDS | rust map FILE ROUNDS"),
    }
}

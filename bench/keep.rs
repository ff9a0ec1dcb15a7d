// Keep on up to 1,024 entries of which none covers another, so many times: the same loops in plain Rust, for timing.
use std::hint::black_box;

#[derive(Clone, Copy)]
struct Counts {
    at: [u8; 8],
}

impl Counts {
    fn covers(self, other: Counts) -> bool {
        for i in 0..8 {
            if self.at[i] < other.at[i] {
                return false;
            }
        }
        true
    }
}

#[derive(Clone, Copy)]
struct Entry {
    ticks: u32,
    counts: Counts,
}

impl Entry {
    fn covers(self, other: Entry) -> bool {
        self.ticks >= other.ticks && self.counts.covers(other.counts)
    }

    fn beats(self, other: Entry) -> bool {
        self.covers(other) && !other.covers(self)
    }
}

fn retain(rows: &mut [Entry], x: Entry) -> usize {
    let mut k = 0;
    for i in 0..rows.len() {
        let y = rows[i];
        if !x.beats(y) {
            rows[k] = y;
            k += 1;
        }
    }
    k
}

#[inline(never)]
fn keep(from: &[Entry], into: &mut [Entry]) -> usize {
    let mut k = 0;
    for &x in from {
        if !into[..k].iter().any(|y| y.covers(x)) {
            k = retain(&mut into[..k], x);
            into[k] = x;
            k += 1;
        }
    }
    k
}

// Entry n of 1,024: the more ticks, the fewer events are sent.
fn entry(n: u32) -> Entry {
    let rest = 1023 - n;
    Entry {
        ticks: n,
        counts: Counts { at: [0, 0, 0, 0, 0, 0, (rest / 4) as u8, (rest % 4) as u8] },
    }
}

fn main() {
    let mut words = std::env::args().skip(1).map(|word| word.parse::<usize>().unwrap());
    let times = words.next().unwrap_or(1);
    let size = words.next().unwrap_or(1024).clamp(1, 1024);
    let mut rows = [entry(0); 1024];
    let mut into = rows;
    for i in 0..1024u32 {
        rows[i as usize] = entry(i * 389 % 1024);
    }
    let mut sum = 0u64;
    for n in 0..times {
        rows.swap(n % size, (n % size * 7 + 3) % size);
        let k = keep(black_box(&rows[..size]), &mut into);
        let shown = into[n % size].ticks;
        sum = sum.wrapping_mul(31).wrapping_add(k as u64).wrapping_add(u64::from(shown));
    }
    println!("{times} {sum}");
}

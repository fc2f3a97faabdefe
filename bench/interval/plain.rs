// The same work as main.rt.txt in plain Rust: products of 128 bits, rounded outward to 2^-40, with the limit 2^120.
use std::time::Instant;

const COUNT: u32 = 1_000_000;
const ROUNDS: u32 = 40;
const LIMIT: i128 = 1 << 120;

type Interval = Option<(i128, i128)>;

fn between(lo: i128, hi: i128) -> Interval {
    if -LIMIT <= lo && lo <= LIMIT && -LIMIT <= hi && hi <= LIMIT {
        Some((lo, hi))
    } else {
        None
    }
}

fn add(a: Interval, b: Interval) -> Interval {
    let ((lo, hi), (low, high)) = (a?, b?);
    between(lo + low, hi + high)
}

fn multiply(a: Interval, f: Interval) -> Interval {
    let ((lo, hi), (low, high)) = (a?, f?);
    let p = lo.checked_mul(low)?;
    let q = lo.checked_mul(high)?;
    let r = hi.checked_mul(low)?;
    let s = hi.checked_mul(high)?;
    let least = p.min(q).min(r.min(s));
    let greatest = p.max(q).max(r.max(s));
    between(least >> 40, -(-greatest >> 40))
}

fn next(state: u64) -> u64 {
    state
        .wrapping_mul(6_364_136_223_846_793_005)
        .wrapping_add(1_442_695_040_888_963_407)
}

fn voltage(state: u64) -> Interval {
    let lo = (state >> 22) as i128;
    let width = (state & 0xff) as i128;
    between(lo, lo + width)
}

fn coefficient(state: u64) -> Interval {
    let lo = (state >> 10) as i128 - 0x20_0000_0000_0000;
    between(lo, lo + 1)
}

#[inline(never)]
fn total(seed: u64) -> Interval {
    let mut state = seed;
    let mut sum = between(0, 0);
    for _ in 0..COUNT {
        let value = voltage(state);
        state = next(state);
        let factor = coefficient(state);
        state = next(state);
        sum = add(sum, multiply(value, factor));
    }
    sum
}

fn main() {
    for round in 0..ROUNDS {
        let start = Instant::now();
        let sum = total(u64::from(round));
        let nanoseconds = start.elapsed().as_nanos();
        match sum {
            Some((lo, hi)) => println!("{nanoseconds} {lo} {hi}"),
            None => println!("{nanoseconds} all"),
        }
    }
}

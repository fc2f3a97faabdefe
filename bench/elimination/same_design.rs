// The elimination of crates/fd_inverse in plain Rust, in the same design: cells of 64 bits, the places of the pivot row that are not 0
// listed once for each column, one multiplication a product, of which the upper half is taken where the factor is short, the sizes of what
// such a factor leaves joined and tested once, the same roundings and limits; nothing is proved. The list has the entry beside each place,
// which is faster here than a copy of the pivot row, since it saves a test of an index. It reads matrices from standard input and inverts
// two full ones besides. A line has the size, the microseconds and the exclusive or of all entries of the inverse.
use std::io::Read;
use std::time::Instant;

const ONE: i64 = 1 << 40;
const ENTRY_LIMIT: u128 = 1 << 62;
const INVERSE_LIMIT: u128 = 1 << 56;
const LEAST_PIVOT: u64 = 1 << 8;
const SHORT_LIMIT: i128 = 1 << 101;
const FACTOR_LIMIT: u64 = 1 << 39;

fn quotient(n: i64, d: i64) -> i128 {
    let by = d.unsigned_abs() as u128;
    let size = ((2 * ((n.unsigned_abs() as u128) << 40) + by) / (2 * by)) as i128;
    if (n < 0) == (d < 0) { size } else { -size }
}

fn nearest(z: i128) -> i128 {
    let half = if z < 0 { (1 << 39) - 1 } else { 1 << 39 };
    (z + half) >> 40
}

// The upper half of 128 bits, to the nearest.
fn nearest_upper(z: i128) -> i64 {
    let half = if z < 0 { (1 << 63) - 1 } else { 1 << 63 };
    ((z + half) >> 64) as i64
}

#[inline(never)]
fn reduce_short(row: &mut [i64], list: &[(u32, i64)], factor: i64) -> bool {
    let scaled = factor << 24;
    let mut sizes = 0;
    for (place, other) in list {
        let entry = &mut row[*place as usize];
        *entry -= nearest_upper(scaled as i128 * *other as i128);
        sizes |= entry.unsigned_abs();
    }
    sizes < 1 << 62 || row.iter().all(|entry| entry.unsigned_abs() as u128 <= ENTRY_LIMIT)
}

#[inline(never)]
fn reduce_long(row: &mut [i64], list: &[(u32, i64)], factor: i64) -> bool {
    for (place, other) in list {
        let entry = &mut row[*place as usize];
        let z = factor as i128 * *other as i128;
        if -SHORT_LIMIT <= z && z < SHORT_LIMIT {
            let left = *entry - nearest(z) as i64;
            if left.unsigned_abs() as u128 > ENTRY_LIMIT {
                return false;
            }
            *entry = left;
        } else {
            let left = *entry as i128 - nearest(z);
            if left.unsigned_abs() > ENTRY_LIMIT {
                return false;
            }
            *entry = left as i64;
        }
    }
    true
}

fn reduce(row: &mut [i64], list: &[(u32, i64)], factor: i64) -> bool {
    if factor.unsigned_abs() < FACTOR_LIMIT {
        reduce_short(row, list, factor)
    } else {
        reduce_long(row, list, factor)
    }
}

fn clear_row(row: &mut [i64], pivot: i64, list: &[(u32, i64)], column: usize) -> bool {
    let entry = row[column];
    if entry == 0 {
        return true;
    }
    let factor = quotient(entry, pivot);
    if factor.unsigned_abs() > ENTRY_LIMIT {
        return false;
    }
    row[column] = 0;
    reduce(row, list, factor as i64)
}

fn pivot_row(cells: &[i64], used: &[bool], width: usize, column: usize) -> (usize, u64) {
    let (mut best, mut most) = (0, 0);
    for row in 0..used.len() {
        let size = cells[row * width + column].unsigned_abs();
        if !used[row] && size > most {
            (best, most) = (row, size);
        }
    }
    (best, most)
}

fn invert(matrix: Vec<i128>, n: usize) -> Option<Vec<i128>> {
    let width = 2 * n;
    let mut cells = Vec::with_capacity(n * width);
    for row in 0..n {
        cells.extend(matrix[row * n..row * n + n].iter().map(|entry| *entry as i64));
        cells.extend((0..n).map(|place| if place == row { ONE } else { 0 }));
    }
    let mut used = vec![false; n];
    let mut list = Vec::with_capacity(width);
    let mut pivots = Vec::with_capacity(n);
    for column in 0..n {
        let (best, most) = pivot_row(&cells, &used, width, column);
        if most < LEAST_PIVOT {
            return None;
        }
        let from = best * width;
        let pivot = cells[from + column];
        list.clear();
        list.extend((column + 1..width).map(|place| (place as u32, cells[from + place])).filter(|item| item.1 != 0));
        for row in 0..n {
            if row != best && !clear_row(&mut cells[row * width..row * width + width], pivot, &list, column) {
                return None;
            }
        }
        used[best] = true;
        pivots.push(best);
    }
    drop(matrix);
    let mut inverse = Vec::with_capacity(n * n);
    for (column, best) in pivots.iter().enumerate() {
        for place in n..width {
            let entry = quotient(cells[best * width + place], cells[best * width + column]);
            if entry.unsigned_abs() > INVERSE_LIMIT {
                return None;
            }
            inverse.push(entry);
        }
    }
    Some(inverse)
}

// A full matrix with a heavy diagonal, the same as in the program that is timed beside this one.
fn full_matrix(n: usize) -> Vec<i128> {
    let mut x: u64 = 7;
    let mut cells = Vec::with_capacity(n * n);
    for place in 0..n * n {
        x = x.wrapping_mul(6364136223846793005).wrapping_add(1442695040888963407);
        let value = ((x >> 33) as i128 - 1_073_741_824) * 256;
        cells.push(if place / n == place % n { value + (1 << 46) } else { value });
    }
    cells
}

fn time(n: usize, matrix: Vec<i128>) {
    let start = Instant::now();
    let inverse = invert(matrix, n);
    let took = start.elapsed();
    match inverse {
        Some(cells) => println!("{n} {} {}", took.as_micros(), cells.iter().fold(0i128, |sum, cell| sum ^ cell)),
        None => println!("{n} has no inverse"),
    }
}

// The matrices of a text: a line of two numbers begins one and gives its size, a line of three is an entry, row and column first.
fn matrices(text: &str) -> Vec<(usize, Vec<i128>)> {
    let mut read: Vec<(usize, Vec<i128>)> = Vec::new();
    for line in text.lines() {
        let words: Vec<i128> = line.split_whitespace().filter_map(|word| word.parse().ok()).collect();
        match (words.as_slice(), read.last_mut()) {
            ([size, _], _) => read.push((*size as usize, vec![0; (size * size) as usize])),
            ([row, col, value], Some((size, cells))) => cells[*row as usize * *size + *col as usize] = *value,
            _ => {}
        }
    }
    read
}

fn main() {
    let mut text = String::new();
    std::io::stdin().read_to_string(&mut text).expect("matrices on standard input");
    for (n, cells) in matrices(&text) {
        time(n, cells);
    }
    for n in [168, 528] {
        time(n, full_matrix(n));
    }
}

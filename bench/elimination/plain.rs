// The elimination of crates/fd_inverse in plain Rust, to compare times: the same steps in the same
// order on the same flat cells, with the same roundings and limits, and nothing proved.
use std::time::Instant;

const ONE: i128 = 1 << 40;
const ENTRY_LIMIT: u128 = 1 << 62;
const INVERSE_LIMIT: u128 = 1 << 56;
const LEAST_PIVOT: u128 = 1 << 8;

fn nearest(z: i128) -> i128 {
    let size = ((z.unsigned_abs() + (1 << 39)) >> 40) as i128;
    if z < 0 { -size } else { size }
}

fn quotient(n: i128, d: i128) -> i128 {
    let by = d.unsigned_abs();
    let size = ((2 * (n.unsigned_abs() << 40) + by) / (2 * by)) as i128;
    if (n < 0) == (d < 0) { size } else { -size }
}

fn product(f: i128, p: i128) -> i128 {
    (f as i64) as i128 * ((p as i64) as i128)
}

fn clear_row(row: &mut [i128], pivot: &[i128], column: usize) -> bool {
    let entry = row[column];
    if entry == 0 {
        return true;
    }
    let factor = quotient(entry, pivot[column]);
    if factor.unsigned_abs() > ENTRY_LIMIT {
        return false;
    }
    row[column] = 0;
    for (x, p) in row[column + 1..].iter_mut().zip(&pivot[column + 1..]) {
        if *p != 0 {
            let left = *x - nearest(product(factor, *p));
            if left.unsigned_abs() > ENTRY_LIMIT {
                return false;
            }
            *x = left;
        }
    }
    true
}

fn pivot_row(cells: &[i128], used: &[bool], width: usize, column: usize) -> (usize, u128) {
    let (mut best, mut most) = (0, 0);
    for row in 0..used.len() {
        let size = cells[row * width + column].unsigned_abs();
        if !used[row] && size > most {
            (best, most) = (row, size);
        }
    }
    (best, most)
}

fn invert(matrix: &[i128], n: usize) -> Option<Vec<i128>> {
    let width = 2 * n;
    let mut cells = vec![0; n * width];
    for row in 0..n {
        cells[row * width..row * width + n].copy_from_slice(&matrix[row * n..row * n + n]);
        cells[row * width + n + row] = ONE;
    }
    let mut used = vec![false; n];
    let mut pivots = Vec::with_capacity(n);
    for column in 0..n {
        let (best, most) = pivot_row(&cells, &used, width, column);
        if most < LEAST_PIVOT {
            return None;
        }
        let pivot = cells[best * width..best * width + width].to_vec();
        for row in 0..n {
            if row != best && !clear_row(&mut cells[row * width..row * width + width], &pivot, column) {
                return None;
            }
        }
        used[best] = true;
        pivots.push(best);
    }
    let mut inverse = Vec::with_capacity(n * n);
    for (column, best) in pivots.iter().enumerate() {
        for place in n..width {
            let entry = quotient(cells[best * width + place], cells[best * width + column]);
            if entry.unsigned_abs() > INVERSE_LIMIT {
                return None;
            }
            inverse.push(entry);
        }
    }
    Some(inverse)
}

// A full matrix with a heavy diagonal, the same as in the program that is timed beside this one.
fn full_matrix(n: usize) -> Vec<i128> {
    let mut x: u64 = 7;
    let mut cells = Vec::with_capacity(n * n);
    for place in 0..n * n {
        x = x.wrapping_mul(6364136223846793005).wrapping_add(1442695040888963407);
        let value = ((x >> 33) as i128 - 1_073_741_824) * 256;
        cells.push(if place / n == place % n { value + (1 << 46) } else { value });
    }
    cells
}

// The sizes are those of the command line, or 168 and 528.
fn sizes() -> Vec<usize> {
    let given: Vec<usize> = std::env::args().skip(1).filter_map(|word| word.parse().ok()).collect();
    if given.is_empty() { vec![168, 528] } else { given }
}

fn main() {
    for n in sizes() {
        let matrix = full_matrix(n);
        let start = Instant::now();
        let inverse = invert(&matrix, n);
        let took = start.elapsed();
        match inverse {
            Some(cells) => {
                let sum = cells.iter().fold(0i128, |sum, cell| sum ^ cell);
                println!("{n} {} {sum}", took.as_micros());
            }
            None => println!("{n} has no inverse"),
        }
    }
}

// A plain reader of certificates: the grammar of docs/CERTIFICATE.md, whole numbers in 128 bits, line by line, with the
// numbers of each block kept as the proved reader keeps them. Prints how many blocks and numbers there are.
use std::convert::TryFrom;
use std::io::Read;

fn number(field: &[u8]) -> Option<i128> {
    let (negative, digits) = match field {
        [b'-', rest @ ..] => (true, rest),
        _ => (false, field),
    };
    if digits.is_empty() || (digits.len() > 1 && digits[0] == b'0') {
        return None;
    }
    let mut value: u128 = 0;
    for digit in digits {
        if !digit.is_ascii_digit() {
            return None;
        }
        value = value.checked_mul(10)?.checked_add(u128::from(digit - b'0'))?;
    }
    if value >= 1 << 127 || (negative && value == 0) {
        return None;
    }
    Some(if negative { -(value as i128) } else { value as i128 })
}

fn numbers(line: &[u8], word: &[u8], into: &mut Vec<i128>) -> Option<()> {
    let mut fields = line.split(|byte| *byte == b' ');
    if fields.next()? != word {
        return None;
    }
    for field in fields {
        into.push(number(field)?);
    }
    Some(())
}

// A row of version 2: how many entries aren't 0, and each of these behind its place.
fn entries(fields: &[i128], size: usize, into: &mut Vec<i128>) -> Option<()> {
    let (count, pairs) = fields.split_first()?;
    let first = into.len();
    for pair in pairs.chunks(2) {
        let &[place, entry] = pair else { return None };
        let place = usize::try_from(place).ok()?;
        if entry == 0 || place >= size || first + place < into.len() {
            return None;
        }
        into.resize(first + place, 0);
        into.push(entry);
    }
    into.resize(first + size, 0);
    (pairs.len() as i128 == 2 * count).then_some(())
}

fn read(text: &[u8]) -> Option<(usize, usize)> {
    let mut lines = text.strip_suffix(b"\n")?.split(|byte| *byte == b'\n').peekable();
    let sparse = match lines.next()? {
        b"cert 1" => false,
        b"cert 2" => true,
        _ => return None,
    };
    let (mut blocks, mut count) = (0, 0);
    loop {
        let line = lines.next()?;
        if line == b"end" {
            return if lines.next().is_none() { Some((blocks, count)) } else { None };
        }
        let mut head = Vec::new();
        numbers(line, b"solution", &mut head)?;
        let &[_, _, _, size] = head.as_slice() else { return None };
        let size = usize::try_from(size).ok()?;
        let (mut parts, mut cells) = (Vec::new(), Vec::with_capacity(size * size));
        for place in 0..size {
            let before = parts.len();
            numbers(lines.next()?, b"x", &mut parts)?;
            if parts.len() != before + 4 || parts[before] != place as i128 {
                return None;
            }
        }
        for place in 0..size {
            let mut row = Vec::with_capacity(size + 1);
            numbers(lines.next()?, b"c", &mut row)?;
            if row.first() != Some(&(place as i128)) {
                return None;
            }
            if sparse {
                entries(&row[1..], size, &mut cells)?;
            } else if row.len() == size + 1 {
                cells.extend_from_slice(&row[1..]);
            } else {
                return None;
            }
        }
        while let Some(line) = lines.peek() {
            let mut act = Vec::new();
            if numbers(line, b"act", &mut act).is_none() || act.len() != 3 {
                break;
            }
            lines.next();
        }
        blocks += 1;
        count += parts.len() + cells.len();
    }
}

fn main() {
    let mut text = Vec::new();
    std::io::stdin().read_to_end(&mut text).unwrap();
    println!("{:?}", read(&text));
}

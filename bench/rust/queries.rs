// The requests that bench/run_queries times, each in Rust as one would write it alone: rows stream in, every field is judged, and only what
// the request needs is kept. One thread. `queries NAME < TABLE` answers as `agg query` does.
use std::collections::HashMap;
use std::io::{Read, Write};
use std::process::exit;

const BLOCK: usize = 256 * 1024;

/// The fields of a row of `day UInt16, user UInt64, page String, ms UInt32, tags Array(String), c1 UInt8, c2 UInt8, c3 UInt8`.
struct Row<'a> {
    day: u16,
    user: u64,
    page: &'a [u8],
    ms: u32,
    c1: u8,
}

fn number(field: &[u8]) -> Option<u64> {
    if field.is_empty() || field.len() > 19 {
        return None;
    }
    let mut number = 0u64;
    for &byte in field {
        let digit = byte.wrapping_sub(b'0');
        if digit > 9 {
            return None;
        }
        number = number * 10 + u64::from(digit);
    }
    Some(number)
}

fn text(field: &[u8]) -> Option<&[u8]> {
    if field.contains(&b'\\') { None } else { Some(field) }
}

fn tags(field: &[u8]) -> Option<()> {
    let inside = field.strip_prefix(b"[")?.strip_suffix(b"]")?;
    if !inside.is_empty() {
        for quoted in inside.split(|&byte| byte == b',') {
            text(quoted.strip_prefix(b"'")?.strip_suffix(b"'")?)?;
        }
    }
    Some(())
}

fn row(line: &[u8]) -> Option<Row<'_>> {
    let mut fields = line.split(|&byte| byte == b'\t');
    let day = u16::try_from(number(fields.next()?)?).ok()?;
    let user = number(fields.next()?)?;
    let page = text(fields.next()?)?;
    let ms = u32::try_from(number(fields.next()?)?).ok()?;
    tags(fields.next()?)?;
    let c1 = u8::try_from(number(fields.next()?)?).ok()?;
    u8::try_from(number(fields.next()?)?).ok()?;
    u8::try_from(number(fields.next()?)?).ok()?;
    match fields.next() {
        None => Some(Row { day, user, page, ms, c1 }),
        Some(_) => None,
    }
}

fn refuse(number: u64) -> ! {
    eprintln!("row {number} is none");
    exit(4)
}

/// Hands out each line behind the first two, without its newline.
fn each_line(mut take: impl FnMut(u64, &[u8])) {
    let mut input = std::io::stdin().lock();
    let mut held: Vec<u8> = Vec::with_capacity(2 * BLOCK);
    let mut block = vec![0u8; BLOCK];
    let mut lines = 0u64;
    loop {
        let count = input.read(&mut block).expect("the input is read");
        if count == 0 {
            break;
        }
        held.extend_from_slice(&block[..count]);
        let mut from = 0;
        while let Some(at) = held[from..].iter().position(|&byte| byte == b'\n') {
            lines += 1;
            if lines > 2 {
                take(lines - 2, &held[from..from + at]);
            }
            from += at + 1;
        }
        held.drain(..from);
    }
    if !held.is_empty() {
        take(lines - 1, &held);
    }
}

fn each_row(mut take: impl FnMut(&Row)) {
    each_line(|number, line| match row(line) {
        Some(row) => take(&row),
        None => refuse(number),
    });
}

fn put(text: &[u8]) {
    std::io::stdout().lock().write_all(text).expect("the answer is written");
}

fn total() {
    let (mut count, mut sum) = (0u64, 0u64);
    each_row(|row| {
        count += 1;
        sum = sum.wrapping_add(u64::from(row.ms));
    });
    put(format!("{count}\t{sum}\n").as_bytes());
}

fn by_day() {
    let mut groups = vec![(0u64, 0u64, 0u64); 65_536];
    each_row(|row| {
        let group = &mut groups[usize::from(row.day)];
        group.0 += 1;
        if row.c1 != 0 {
            group.1 = group.1.wrapping_add(u64::from(row.ms));
            group.2 += 1;
        }
    });
    let mut text = Vec::new();
    for (day, group) in groups.iter().enumerate() {
        if group.0 > 0 {
            let _ = writeln!(text, "{day}\t{}\t{}\t{}", group.0, group.1, group.2);
        }
    }
    put(&text);
}

fn sorted<K: Ord, V>(groups: HashMap<K, V>) -> Vec<(K, V)> {
    let mut groups: Vec<(K, V)> = groups.into_iter().collect();
    groups.sort_unstable_by(|a, b| a.0.cmp(&b.0));
    groups
}

fn by_user() {
    let mut groups: HashMap<u64, (u64, u64)> = HashMap::new();
    each_row(|row| {
        let group = groups.entry(row.user).or_default();
        group.0 += 1;
        group.1 = group.1.wrapping_add(u64::from(row.ms));
    });
    let mut text = Vec::new();
    for (user, group) in sorted(groups) {
        let _ = writeln!(text, "{user}\t{}\t{}", group.0, group.1);
    }
    put(&text);
}

fn by_visitor() {
    let mut groups: HashMap<Vec<u8>, (u64, u64)> = HashMap::new();
    each_row(|row| match groups.get_mut(row.page) {
        Some(group) => {
            group.0 += 1;
            group.1 = group.1.wrapping_add(u64::from(row.ms));
        }
        None => {
            groups.insert(row.page.to_vec(), (1, u64::from(row.ms)));
        }
    });
    let mut text = Vec::new();
    for (page, group) in sorted(groups) {
        text.extend_from_slice(&page);
        let _ = writeln!(text, "\t{}\t{}", group.0, group.1);
    }
    put(&text);
}

/// The number at half of the length, of the numbers in order.
fn median(numbers: &mut [u32]) -> u32 {
    let at = numbers.len() / 2;
    *numbers.select_nth_unstable(at).1
}

fn median_by_day() {
    let mut groups: HashMap<u16, Vec<u32>> = HashMap::new();
    each_row(|row| groups.entry(row.day).or_default().push(row.ms));
    let mut text = Vec::new();
    for (day, mut numbers) in sorted(groups) {
        let _ = writeln!(text, "{day}\t{}", median(&mut numbers));
    }
    put(&text);
}

fn first_pages() {
    let mut groups: HashMap<u64, Vec<Vec<u8>>> = HashMap::new();
    each_row(|row| {
        let pages = groups.entry(row.user).or_default();
        if pages.len() < 3 {
            pages.push(row.page.to_vec());
        }
    });
    let mut text = Vec::new();
    for (user, pages) in sorted(groups) {
        let _ = write!(text, "{user}\t[");
        for (i, page) in pages.iter().enumerate() {
            text.extend_from_slice(if i == 0 { b"'" } else { b",'" });
            text.extend_from_slice(page);
            text.push(b'\'');
        }
        text.extend_from_slice(b"]\n");
    }
    put(&text);
}

fn put_hex(text: &mut Vec<u8>, bytes: &[u8]) {
    for byte in bytes {
        text.push(b"0123456789abcdef"[usize::from(byte >> 4)]);
        text.push(b"0123456789abcdef"[usize::from(byte & 15)]);
    }
}

fn states_by_user() {
    let mut groups: HashMap<u64, u64> = HashMap::new();
    each_row(|row| {
        let sum = groups.entry(row.user).or_default();
        *sum = sum.wrapping_add(u64::from(row.ms));
    });
    let mut text = Vec::new();
    for (user, sum) in sorted(groups) {
        let _ = write!(text, "{user}\t");
        put_hex(&mut text, &state(sum));
        text.push(b'\n');
    }
    put(&text);
}

/// The bytes of a state of sum that has rows: the version, that there are rows, and the sum, its highest byte first.
fn state(sum: u64) -> [u8; 10] {
    let mut bytes = [1u8; 10];
    bytes[2..].copy_from_slice(&sum.to_be_bytes());
    bytes
}

fn digit(byte: u8) -> Option<u8> {
    match byte {
        b'0'..=b'9' => Some(byte - b'0'),
        b'a'..=b'f' => Some(byte - b'a' + 10),
        _ => None,
    }
}

fn state_sum(field: &[u8]) -> Option<u64> {
    let field: &[u8; 20] = field.try_into().ok()?;
    let mut bytes = [0u8; 10];
    for (i, byte) in bytes.iter_mut().enumerate() {
        *byte = digit(field[2 * i])? << 4 | digit(field[2 * i + 1])?;
    }
    if bytes[..2] != [1, 1] {
        return None;
    }
    Some(u64::from_be_bytes(bytes[2..].try_into().ok()?))
}

fn state_row(line: &[u8]) -> Option<(u64, u64)> {
    let mut fields = line.split(|&byte| byte == b'\t');
    let row = (number(fields.next()?)?, state_sum(fields.next()?)?);
    match fields.next() {
        None => Some(row),
        Some(_) => None,
    }
}

fn merge_states() {
    let mut groups: HashMap<u64, u64> = HashMap::new();
    each_line(|number, line| match state_row(line) {
        Some((user, more)) => {
            let sum = groups.entry(user).or_default();
            *sum = sum.wrapping_add(more);
        }
        None => refuse(number),
    });
    let mut text = Vec::new();
    for (user, sum) in sorted(groups) {
        let _ = writeln!(text, "{user}\t{sum}");
    }
    put(&text);
}

fn main() {
    let name = std::env::args().nth(1).unwrap_or_default();
    match name.as_str() {
        "total" => total(),
        "by_day" => by_day(),
        "by_user" => by_user(),
        "by_visitor" => by_visitor(),
        "median_by_day" => median_by_day(),
        "first_pages" => first_pages(),
        "states_by_user" => states_by_user(),
        "merge_states" => merge_states(),
        _ => exit(2),
    }
}

// The rows of the table that `bench_rows` reads, read in Rust as one would write it: each line by its
// fields, each field checked and pushed into a flat column. One thread.
use std::time::Instant;

/// Strings one behind another: where each ends, and their bytes.
struct Texts {
    ends: Vec<usize>,
    bytes: Vec<u8>,
}

struct Rows {
    day: Vec<u16>,
    user: Vec<u64>,
    page: Texts,
    ms: Vec<u32>,
    tag_ends: Vec<usize>,
    tags: Texts,
    c: [Vec<u8>; 3],
}

impl Texts {
    fn new() -> Texts {
        Texts { ends: Vec::new(), bytes: Vec::new() }
    }

    fn push(&mut self, text: &[u8]) -> Option<()> {
        if text.contains(&b'\\') {
            return None;
        }
        self.bytes.extend_from_slice(text);
        self.ends.push(self.bytes.len());
        Some(())
    }
}

fn number(field: &[u8]) -> Option<u64> {
    if field.is_empty() || field.len() > 19 {
        return None;
    }
    let mut number = 0u64;
    for &byte in field {
        let digit = byte.wrapping_sub(b'0');
        if digit > 9 {
            return None;
        }
        number = number * 10 + u64::from(digit);
    }
    Some(number)
}

impl Rows {
    fn new() -> Rows {
        Rows {
            day: Vec::new(),
            user: Vec::new(),
            page: Texts::new(),
            ms: Vec::new(),
            tag_ends: Vec::new(),
            tags: Texts::new(),
            c: [Vec::new(), Vec::new(), Vec::new()],
        }
    }

    fn push_tags(&mut self, field: &[u8]) -> Option<()> {
        let inside = field.strip_prefix(b"[")?.strip_suffix(b"]")?;
        if !inside.is_empty() {
            for quoted in inside.split(|&byte| byte == b',') {
                self.tags.push(quoted.strip_prefix(b"'")?.strip_suffix(b"'")?)?;
            }
        }
        self.tag_ends.push(self.tags.ends.len());
        Some(())
    }

    fn push_line(&mut self, line: &[u8]) -> Option<()> {
        let mut fields = line.split(|&byte| byte == b'\t');
        self.day.push(u16::try_from(number(fields.next()?)?).ok()?);
        self.user.push(number(fields.next()?)?);
        self.page.push(fields.next()?)?;
        self.ms.push(u32::try_from(number(fields.next()?)?).ok()?);
        self.push_tags(fields.next()?)?;
        for c in &mut self.c {
            c.push(u8::try_from(number(fields.next()?)?).ok()?);
        }
        match fields.next() {
            None => Some(()),
            Some(_) => None,
        }
    }
}

fn read(text: &[u8]) -> Option<Rows> {
    let mut rows = Rows::new();
    let mut left = text;
    while !left.is_empty() {
        let end = left.iter().position(|&byte| byte == b'\n').unwrap_or(left.len());
        rows.push_line(&left[..end])?;
        left = left.get(end + 1..).unwrap_or(&[]);
    }
    Some(rows)
}

fn draw(x: &mut u64, of: u64) -> u64 {
    *x = x.wrapping_mul(6364136223846793005).wrapping_add(1442695040888963407);
    (*x >> 33) % of
}

fn text_of(rows: u64) -> String {
    let mut text = String::new();
    let mut x = 1;
    for _ in 0..rows {
        text += &format!("{}\t", draw(&mut x, 400));
        text += &format!("{}\t", draw(&mut x, 200_000));
        text += &format!("p{}\t", draw(&mut x, 1_000));
        text += &format!("{}\t[", draw(&mut x, 1_000_000));
        for i in 0..draw(&mut x, 4) {
            text += if i == 0 { "" } else { "," };
            text += &format!("'t{}'", draw(&mut x, 20));
        }
        let (a, b, c) = (draw(&mut x, 2), draw(&mut x, 2), draw(&mut x, 2));
        text += &format!("]\t{a}\t{b}\t{c}\n");
    }
    text
}

fn main() {
    let text = text_of(1_000_000);
    for _ in 0..5 {
        let start = Instant::now();
        let rows = read(text.as_bytes()).expect("rows");
        let seconds = start.elapsed().as_secs_f64();
        let speed = text.len() as f64 / 1e6 / seconds;
        println!("{} rows, {} bytes: {speed:.0} MB/s", rows.day.len(), text.len());
    }
}

// The same job as bench_fields, as one would write it in Rust: a thousand fields of a kind are made,
// and each is read five thousand times into a value, an array a hundred times.
use std::hint::black_box;
use std::str::from_utf8;
use std::time::Instant;

const FIELDS: u32 = 1000;
const KINDS: [&str; 5] = ["UInt64", "Int8", "String", "escapes", "Array"];

#[allow(dead_code)]
enum Value {
    Num(i128),
    Bytes(Vec<u8>),
    Items(Vec<Value>),
}

fn turns(kind: &str) -> u32 {
    if kind == "Array" { 100 } else { 5000 }
}

fn next(bits: u64) -> u64 {
    bits.wrapping_mul(6364136223846793005).wrapping_add(1442695040888963407)
}

fn letters(mut bits: u64, escapes: bool) -> String {
    let mut text = String::new();
    for place in 0..16 {
        if escapes && place % 4 == 3 {
            text.push_str("\\n");
        } else {
            text.push((b'a' + (bits % 16) as u8) as char);
        }
        bits /= 16;
    }
    text
}

fn array(mut bits: u64) -> String {
    let mut elements = Vec::new();
    for _ in 0..100 {
        elements.push(((bits >> 32) >> ((bits >> 27) % 32)).to_string());
        bits = next(bits);
    }
    format!("[{}]", elements.join(","))
}

fn field(kind: &str, bits: u64) -> String {
    match kind {
        "UInt64" => ((bits ^ bits >> 33) >> (bits >> 58)).to_string(),
        "Int8" => ((bits >> 56) as i64 - 128).to_string(),
        "Array" => array(bits),
        kind => letters(bits, kind == "escapes"),
    }
}

fn fields(kind: &str) -> Vec<Vec<u8>> {
    let mut bits = 1u64;
    let mut one = || {
        bits = next(bits);
        field(kind, bits).into_bytes()
    };
    (0..FIELDS).map(|_| one()).collect()
}

fn hexadecimal(digits: &[u8]) -> Option<u8> {
    u8::from_str_radix(from_utf8(digits).ok()?, 16).ok()
}

fn unescaped(field: &[u8]) -> Option<Vec<u8>> {
    let mut text = Vec::with_capacity(field.len());
    let mut left = field;
    while let [byte, after @ ..] = left {
        left = after;
        if *byte != b'\\' {
            text.push(*byte);
            continue;
        }
        let (escape, after) = left.split_first()?;
        left = after;
        text.push(match escape {
            b'a' => 7,
            b'b' => 8,
            b't' => b'\t',
            b'n' => b'\n',
            b'v' => 11,
            b'f' => 12,
            b'r' => b'\r',
            b'0' => 0,
            b'x' => {
                let byte = hexadecimal(left.get(..2)?)?;
                left = &left[2..];
                byte
            }
            other => *other,
        });
    }
    Some(text)
}

fn spaces(text: &[u8]) -> &[u8] {
    let count = text.iter().take_while(|&&byte| byte == b' ').count();
    &text[count..]
}

/// An array of UInt32: a bracket, numbers behind commas, a bracket; spaces may stand between them.
fn items(field: &[u8]) -> Option<Vec<Value>> {
    let mut items = Vec::new();
    let mut left = spaces(spaces(field).strip_prefix(b"[")?);
    if let Some(after) = left.strip_prefix(b"]") {
        return spaces(after).is_empty().then_some(items);
    }
    loop {
        let end = left.iter().position(|byte| matches!(byte, b',' | b']' | b' '))?;
        items.push(Value::Num(from_utf8(&left[..end]).ok()?.parse::<u32>().ok()?.into()));
        left = spaces(&left[end..]);
        match left.split_first()? {
            (b',', after) => left = spaces(after),
            (b']', after) => return spaces(after).is_empty().then_some(items),
            _ => return None,
        }
    }
}

fn read(kind: &str, field: &[u8]) -> Option<Value> {
    if field == b"\\N" {
        return None;
    }
    match kind {
        "UInt64" => Some(Value::Num(from_utf8(field).ok()?.parse::<u64>().ok()?.into())),
        "Int8" => Some(Value::Num(from_utf8(field).ok()?.parse::<i8>().ok()?.into())),
        "Array" => Some(Value::Items(items(field)?)),
        _ => Some(Value::Bytes(unescaped(field)?)),
    }
}

fn report(kind: &str) {
    let fields = fields(kind);
    let mut values = 0u64;
    let start = Instant::now();
    for _ in 0..turns(kind) {
        for field in &fields {
            let value = black_box(read(black_box(kind), black_box(field)));
            if value.is_some() {
                values += 1;
            }
        }
    }
    let micros = start.elapsed().as_micros().max(1);
    println!("{kind} {values} {}", u128::from(values) * 1_000_000 / micros);
}

fn main() {
    let mut words = std::env::args().skip(1);
    if words.next().as_deref() != Some("run") {
        return;
    }
    let wanted = words.next();
    for kind in KINDS {
        if wanted.as_deref().is_none_or(|name| name == kind) {
            report(kind);
        }
    }
}

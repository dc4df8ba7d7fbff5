// The same job as `agg query` at count() and sum(x) over UInt64 columns, as one would write it in
// Rust: the whole input is read, its rows go into flat columns, and then the calls are answered.
use std::io::{Read, Write};
use std::process::exit;

enum Call {
    Count,
    Sum(usize),
}

fn refuse(text: &str, status: i32) -> ! {
    println!("error: {text}");
    exit(status)
}

fn first_line(text: &[u8]) -> (&[u8], &[u8]) {
    match text.iter().position(|&byte| byte == b'\n') {
        Some(at) => (&text[..at], &text[at + 1..]),
        None => (text, &[]),
    }
}

fn columns_of(line: &[u8]) -> Option<Vec<&str>> {
    let columns = std::str::from_utf8(line).ok()?.strip_prefix("TABLE ")?;
    columns.split(", ").map(|column| column.strip_suffix(" UInt64")).collect()
}

fn calls_of(line: &[u8], columns: &[&str]) -> Option<Vec<Call>> {
    let calls = std::str::from_utf8(line).ok()?.strip_prefix("SELECT ")?;
    let call_of = |call: &str| match call {
        "count()" => Some(Call::Count),
        _ => {
            let name = call.strip_prefix("sum(")?.strip_suffix(")")?;
            columns.iter().position(|&column| column == name).map(Call::Sum)
        }
    };
    calls.split(", ").map(call_of).collect()
}

fn number_of(field: &[u8]) -> Option<u64> {
    if field.is_empty() {
        return None;
    }
    let mut number = 0u64;
    for &byte in field {
        if !byte.is_ascii_digit() {
            return None;
        }
        number = number.checked_mul(10)?.checked_add(u64::from(byte - b'0'))?;
    }
    Some(number)
}

fn read_rows(mut rest: &[u8], width: usize) -> Option<Vec<Vec<u64>>> {
    let mut columns = vec![Vec::new(); width];
    while !rest.is_empty() {
        let (line, after) = first_line(rest);
        let mut fields = line.split(|&byte| byte == b'\t');
        for column in &mut columns {
            column.push(number_of(fields.next()?)?);
        }
        if fields.next().is_some() {
            return None;
        }
        rest = after;
    }
    Some(columns)
}

fn main() {
    let mut input = Vec::new();
    if std::io::stdin().read_to_end(&mut input).is_err() {
        refuse("read failed", 6);
    }
    let (table, rest) = first_line(&input);
    let (request, rest) = first_line(rest);
    let names = columns_of(table).unwrap_or_else(|| refuse("line 1", 3));
    let calls = calls_of(request, &names).unwrap_or_else(|| refuse("line 2", 3));
    let columns = read_rows(rest, names.len()).unwrap_or_else(|| refuse("a row", 4));
    let answers: Vec<String> = calls
        .iter()
        .map(|call| match call {
            Call::Count => columns[0].len().to_string(),
            Call::Sum(at) => columns[*at].iter().fold(0u64, |sum, &x| sum.wrapping_add(x)).to_string(),
        })
        .collect();
    let answer = answers.join("\t") + "\n";
    if std::io::stdout().write_all(answer.as_bytes()).is_err() {
        exit(7);
    }
}

//! The tasks of values of `template_program_parts_rows` with Rust's own library alone: each word is a task, done once, and a
//! line tells its name and the microseconds that it took.
use std::collections::BTreeMap;
use std::fmt::Write;
use std::hint::black_box;
use std::rc::Rc;
use std::time::{Duration, Instant};

const LINE: &str = "The <quick> brown fox jumps over the lazy dog, and so it goes on & on for a long line.\n";
const LINES: usize = 115_000;
const DENSE: &str = "<>&\"'/";
const DENSE_TIMES: usize = 833_334;
const KEYS: u32 = 100_000;
const LOOK_UPS: u32 = 10_000_000;
const ADDITIONS: u32 = 10_000_000;
const COPIES: u32 = 1_000_000;

#[derive(Clone)]
enum Value {
    Int(i128),
    Text(Rc<str>),
    List(Rc<Vec<Value>>),
}

fn main() {
    for task in std::env::args().skip(1) {
        let time = match task.as_str() {
            "print" => print(),
            "escape-html" => escape(LINE.repeat(LINES), html),
            "escape-dense" => escape(DENSE.repeat(DENSE_TIMES), html),
            "escape-json" => escape(LINE.repeat(LINES), json),
            "sort-map" => sort_map(),
            "look-up" => look_up(),
            "add" => add_up(),
            "copy" => copy(),
            _ => panic!("no such task: {task}"),
        };
        println!("{task} {}", time.as_micros());
    }
}

fn print() -> Duration {
    let value = Value::Text(LINE.repeat(LINES).into());
    let mut out = String::new();
    let start = Instant::now();
    if let Value::Text(text) = black_box(&value) {
        out.push_str(text);
    }
    let time = start.elapsed();
    black_box(out);
    time
}

fn escape(text: String, write: fn(&str, &mut String)) -> Duration {
    let mut out = String::new();
    let start = Instant::now();
    write(black_box(&text), &mut out);
    let time = start.elapsed();
    black_box(out);
    time
}

// Blocks between the characters that are escaped are copied whole.
fn html(text: &str, out: &mut String) {
    let mut rest = 0;
    for (place, byte) in text.bytes().enumerate() {
        let reference = match byte {
            b'<' => "&lt;",
            b'>' => "&gt;",
            b'&' => "&amp;",
            b'"' => "&quot;",
            b'\'' => "&#x27;",
            b'/' => "&#x2f;",
            _ => continue,
        };
        out.push_str(&text[rest..place]);
        out.push_str(reference);
        rest = place + 1;
    }
    out.push_str(&text[rest..]);
}

fn json(text: &str, out: &mut String) {
    out.push('"');
    let mut rest = 0;
    for (place, byte) in text.bytes().enumerate() {
        if byte != b'"' && byte != b'\\' && byte >= 0x20 {
            continue;
        }
        out.push_str(&text[rest..place]);
        match byte {
            b'"' => out.push_str("\\\""),
            b'\\' => out.push_str("\\\\"),
            b'\n' => out.push_str("\\n"),
            b'\r' => out.push_str("\\r"),
            b'\t' => out.push_str("\\t"),
            _ => write!(out, "\\u{byte:04x}").expect("a String takes all"),
        }
        rest = place + 1;
    }
    out.push_str(&text[rest..]);
    out.push('"');
}

fn shuffled(number: u32) -> u32 {
    number % KEYS * 7919 % KEYS
}

fn keys() -> Vec<(Rc<str>, Value)> {
    (0..KEYS)
        .map(|number| (format!("key {}", shuffled(number)).into(), Value::Int(number.into())))
        .collect()
}

fn sort_map() -> Duration {
    let entries = keys();
    let start = Instant::now();
    let map: BTreeMap<Rc<str>, Value> = entries.into_iter().collect();
    let time = start.elapsed();
    black_box(map);
    time
}

fn look_up() -> Duration {
    let mut entries = keys();
    entries.sort_by(|left, right| left.0.cmp(&right.0));
    let names: Vec<String> = (0..KEYS).map(|number| format!("key {}", shuffled(number))).collect();
    let mut found = 0;
    let start = Instant::now();
    for _ in 0..LOOK_UPS / KEYS {
        for name in &names {
            if entries.binary_search_by(|entry| (*entry.0).cmp(name.as_str())).is_ok() {
                found += 1;
            }
        }
    }
    let time = start.elapsed();
    assert_eq!(found, LOOK_UPS);
    time
}

fn sum(left: &Value, right: &Value) -> Option<Value> {
    match (left, right) {
        (Value::Int(left), Value::Int(right)) => left.checked_add(*right).map(Value::Int),
        _ => None,
    }
}

fn add_up() -> Duration {
    let mut total = Value::Int(0);
    let one = Value::Int(1);
    let start = Instant::now();
    for _ in 0..ADDITIONS {
        total = sum(black_box(&total), black_box(&one)).expect("in range");
    }
    let time = start.elapsed();
    assert!(matches!(total, Value::Int(number) if number == ADDITIONS.into()));
    time
}

fn copy() -> Duration {
    let list = Value::List(Rc::new((0..KEYS).map(|number| Value::Int(number.into())).collect()));
    let start = Instant::now();
    for _ in 0..COPIES {
        black_box(black_box(&list).clone());
    }
    let time = start.elapsed();
    assert!(matches!(list, Value::List(items) if items.len() == KEYS as usize));
    time
}

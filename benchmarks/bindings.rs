// Renders in one process by the library and by Tera: bindings-beside FILE.., each one workload as JSON, with `text` and `context`. Tells
// for each the microseconds of a render by a session, with the reading of the context, of the same by a `Value` of this package, and of
// one by Tera over a context that is parsed and made anew, and over one that stands, by the processor's time.
use dalecolander::Environment;
use std::hint::black_box;
use tera::{Context, Tera};

#[repr(C)]
struct Time {
    seconds: i64,
    nanoseconds: i64,
}

extern "C" {
    fn clock_gettime(clock: i32, time: *mut Time) -> i32;
}

// The processor's time that this process has taken, in seconds.
fn taken() -> f64 {
    let mut time = Time { seconds: 0, nanoseconds: 0 };
    unsafe { clock_gettime(2, &mut time) };
    time.seconds as f64 + time.nanoseconds as f64 / 1e9
}

// The least of short samples, in microseconds a call, since other work on the machine lengthens most of them.
fn best(mut call: impl FnMut()) -> f64 {
    let mut times = |count: u64| {
        let start = taken();
        (0..count).for_each(|_| call());
        taken() - start
    };
    let count = (1e-3 / times(1).max(1e-7)).max(1.0) as u64;
    let end = taken() + 2.0;
    let mut least = f64::INFINITY;
    for sample in 0..500 {
        if sample >= 5 && taken() > end {
            break;
        }
        least = least.min(times(count));
    }
    least / count as f64 * 1e6
}

fn main() {
    for file in std::env::args().skip(1) {
        let workload: serde_json::Value = serde_json::from_slice(&std::fs::read(&file).unwrap()).unwrap();
        let text = workload["text"].as_str().unwrap();
        let context = workload["context"].to_string();

        let mut environment = Environment::new();
        environment.add_template("t.html", text);
        environment.set_syntax(dalecolander::Value::from([("keep_trailing_newline", true)]));
        let mut session = environment.open().unwrap();
        let mut tera = Tera::default();
        tera.add_raw_template("t.html", text).unwrap();
        let made = |json: &str| Context::from_value(serde_json::from_str(json).unwrap()).unwrap();
        let standing = made(&context);
        let value: dalecolander::Value = context.parse().unwrap();
        assert_eq!(session.render_json("t.html", &context).unwrap(), tera.render("t.html", &standing).unwrap());

        let cells = [
            best(|| _ = black_box(session.render_json("t.html", &context).unwrap().len())),
            best(|| drop(black_box(session.render("t.html", &value).unwrap()))),
            best(|| drop(black_box(tera.render("t.html", &made(&context)).unwrap()))),
            best(|| drop(black_box(tera.render("t.html", &standing).unwrap()))),
        ];
        println!("{}: {:.1?}", workload["name"].as_str().unwrap(), cells);
    }
}

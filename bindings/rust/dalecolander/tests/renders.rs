//! What the crate adds to the library: contexts, settings and errors.
use dalecolander::{AutoEscape, Environment, Floats, Status, Undefined, Value};

fn of(text: &str) -> Environment {
    let mut environment = Environment::new();
    environment.add_template("t", text);
    environment
}

fn empty() -> Value {
    Value::Map(Default::default())
}

fn with(value: impl Into<Value>) -> Value {
    Value::from([("x", value)])
}

#[test]
fn renders() {
    let context = Value::from([("x", Value::from(1)), ("y", vec!["é"].into())]);
    assert_eq!(of("{{ x }}{{ y[0] }}").render("t", &context).unwrap(), "1é");
    assert_eq!(of("{{ x }}").render("t", &with("a\0b\"\\\u{1f600}")).unwrap(), "a\0b\"\\\u{1f600}");
    assert_eq!(of("{{ x }}").render("t", &with(None::<bool>)).unwrap(), "none");
    assert_eq!(of("{{ x.k }}").render("t", &r#"{"x": {"k": [true, -2]}}"#.parse().unwrap()).unwrap(), "[true, -2]");
}

#[test]
fn json() {
    for text in ["null", "[1,-2.5e-7,\"é\\u0000\\\"\\\\\"]", "{\"a\":{},\"b\":[[]]}", "true"] {
        assert_eq!(text.parse::<Value>().unwrap().to_string(), text);
    }
    assert_eq!("\" \\ud83d\\ude00\\n\" ".parse::<Value>().unwrap(), Value::from(" \u{1f600}\n"));
    let deep = "[".repeat(200) + &"]".repeat(200);
    for text in ["", "[1,]", "01", "1.", "\"\\ud83d\"", "\"a", "nul", "1 2", "{\"a\" 1}", deep.as_str()] {
        assert!(text.parse::<Value>().is_err(), "{text}");
    }
}

#[test]
fn settings() {
    let mut environment = of("{{ x | upper }}");
    assert_eq!(environment.render("t", &with("a")).unwrap_err().kinds, ["UnknownFilter"]);
    environment.set_builtins(true);
    assert_eq!(environment.render("t", &with("a")).unwrap(), "A");
    environment.set_fuel(Some(0));
    assert_eq!(environment.render("t", &with("a")).unwrap_err().kinds, ["OutOfFuel"]);

    let mut environment = of("{{ x }}");
    environment.set_auto_escape(AutoEscape::Html);
    assert_eq!(environment.render("t", &with("<")).unwrap(), "&lt;");
    environment.set_undefined(Undefined::Strict);
    assert_eq!(environment.render("t", &empty()).unwrap_err().kinds, ["UndefinedError"]);
    environment.set_syntax(Value::from([("variable_start", "<<"), ("variable_end", ">>")]));
    assert_eq!(environment.render("t", &empty()).unwrap(), "{{ x }}");
    environment.set_syntax(Value::from([("variable_start", 1)]));
    let refused = environment.render("t", &empty()).unwrap_err();
    assert_eq!((refused.status, refused.member.as_deref()), (Status::Request, Some("variable_start")));
}

#[test]
fn floats() {
    let mut environment = of("{{ x }}");
    assert_eq!(environment.render("t", &with(1.5)).unwrap_err().kinds, ["NoFloats"]);
    environment.set_floats(Floats::Text);
    assert_eq!(environment.render("t", &with(1.5)).unwrap(), "1.5");
    assert_eq!(environment.render("t", &with(vec![7])).unwrap(), "[7]");
}

#[test]
fn errors() {
    let mut environment = of("a{% include 'b' %}");
    environment.add_template("b", "x\n {{ y.z }}");
    let failed = environment.render("t", &empty()).unwrap_err();
    assert_eq!(failed.status, Status::Render);
    assert_eq!(failed.kinds, ["BadInclude", "UndefinedError"]);
    assert_eq!((failed.places[0].name.as_str(), failed.places[0].line), ("t", 1));
    assert_eq!((failed.places[1].name.as_str(), failed.places[1].line), ("b", 2));
    assert_eq!(failed.text, "ax\n ");

    assert_eq!(of("{% if %}").render("t", &empty()).unwrap_err().status, Status::Template);
    assert_eq!(of("").render("other", &empty()).unwrap_err().kinds, ["TemplateNotFound"]);
    assert_eq!(of("").render("t", &Value::List(Vec::new())).unwrap_err().status, Status::Context);
}

#[test]
fn long_replies() {
    let text = of("{% for i in range(x) %}abcdefgh{% endfor %}").render("t", &with(10_000)).unwrap();
    assert_eq!(text.len(), 80_000);
}

#[test]
fn names() {
    let names = of("{{ b }}{{ a }}").context_names("t").unwrap();
    assert!(names.iter().any(|name| name == "a") && names.iter().any(|name| name == "b") && !names.iter().any(|name| name == "c"));
}

// A thread of the standard library has 2 MiB of stack.
#[test]
fn deep_in_a_thread() {
    let mut environment = of("{% macro m(n) %}{% if n %}{{ m(n - 1) }}{% endif %}{% endmacro %}{{ m(40) }}.");
    environment.set_limit(500);
    let ran = std::thread::spawn(move || environment.render("t", &empty())).join().unwrap();
    assert_eq!(ran.unwrap(), ".");
}

#[test]
fn sessions() {
    let mut environment = of("{{ x }}{{ y.z }}");
    environment.add_template("b", "<{{ x }}>");
    let mut session = environment.open().unwrap();
    for number in 0..100 {
        assert_eq!(session.render("b", &with(number)).unwrap(), format!("<{number}>"));
        assert_eq!(session.render("t", &with(number)).unwrap_err().text, number.to_string());
    }
    assert_eq!(session.render_json("b", "{\"x\": [1]}").unwrap(), "<[1]>");
    assert_eq!(session.render_json("b", "").unwrap(), "<>");
    assert_eq!(session.render_json("b", "[1]").unwrap_err().status, Status::Context);
    assert_eq!(session.render("c", &empty()).unwrap_err().kinds, ["TemplateNotFound"]);
    assert_eq!(session.render("b", &with("abcdefgh".repeat(10_000))).unwrap().len(), 80_002);
    assert_eq!(of("{% if %}").open().err().unwrap().status, Status::Template);
    environment.set_syntax(Value::from([("variable_start", "")]));
    assert_eq!(environment.open().err().unwrap().kinds, ["InvalidDelimiter"]);
}

// A thread of the standard library has 2 MiB of stack.
#[test]
fn a_session_in_a_thread() {
    let deep = "[".repeat(120) + &"]".repeat(120);
    let ran = std::thread::spawn(move || {
        let mut session = of("{{ x }}").open().unwrap();
        let text = session.render_json("t", &format!("{{\"x\": {deep}}}")).unwrap().to_owned();
        text == deep
    });
    assert!(ran.join().unwrap());
}

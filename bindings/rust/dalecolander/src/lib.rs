//! Dalecolander, a template engine of the Jinja2 kind, whose engine is proved. This crate calls it through its C functions.
//!
//! ```
//! use dalecolander::{Environment, Value};
//!
//! let mut environment = Environment::new();
//! environment.add_template("hello.html", "Hello {{ name }}!");
//! let text = environment.render("hello.html", &Value::from([("name", "<World>")]))?;
//! assert_eq!(text, "Hello &lt;World&gt;!");
//! # Ok::<(), dalecolander::Error>(())
//! ```
mod error;
mod library;
mod reading;
mod session;
mod value;

pub use error::{Error, Place, Status};
use library::Call;
pub use reading::NoJson;
pub use session::Session;
use std::collections::BTreeMap;
pub use value::Value;

/// What may be done with an undefined value.
#[derive(Clone, Copy, Debug, PartialEq, Eq)]
pub enum Undefined {
    /// It prints and iterates as nothing and is false; its attributes are refused.
    Lenient,
    /// As lenient, and its attributes are undefined.
    Chainable,
    /// It may be tested and compared, and not printed, iterated or looked into.
    SemiStrict,
    /// It may be tested for being undefined alone.
    Strict,
}

/// What becomes of a number of a context that is no whole one of 64 bits.
#[derive(Clone, Copy, Debug, PartialEq, Eq)]
pub enum Floats {
    /// It is refused.
    Refused,
    /// It is a text, as JSON spells it.
    Text,
}

/// How printed values are escaped.
#[derive(Clone, Copy, Debug, PartialEq, Eq)]
pub enum AutoEscape {
    /// As the name of each template says.
    Name,
    /// As HTML.
    Html,
    /// As JSON.
    Json,
    /// Not at all.
    None,
}

/// Templates by their names, and how they are read and rendered.
#[derive(Clone, Debug, Default)]
pub struct Environment {
    templates: BTreeMap<String, String>,
    settings: BTreeMap<String, Value>,
}

impl Environment {
    /// An environment with no templates and no builtins.
    pub fn new() -> Environment {
        Environment::default()
    }

    /// Adds a template, in place of one of its name. A render tells whether it is refused.
    pub fn add_template(&mut self, name: impl Into<String>, text: impl Into<String>) {
        self.templates.insert(name.into(), text.into());
    }

    /// Sets whether the builtin filters, tests and functions can be used.
    pub fn set_builtins(&mut self, builtins: bool) {
        self.set("builtins", builtins.into());
    }

    /// Sets the fuel of renders; `None` for none.
    pub fn set_fuel(&mut self, fuel: Option<u64>) {
        self.set("fuel", fuel.into());
    }

    /// Sets how deep a render may go; 500 at most.
    pub fn set_limit(&mut self, limit: u64) {
        self.set("limit", limit.into());
    }

    /// Sets what may be done with undefined values.
    pub fn set_undefined(&mut self, undefined: Undefined) {
        let word = match undefined {
            Undefined::Lenient => "lenient",
            Undefined::Chainable => "chainable",
            Undefined::SemiStrict => "semistrict",
            Undefined::Strict => "strict",
        };
        self.set("undefined", word.into());
    }

    /// Sets how printed values are escaped.
    pub fn set_auto_escape(&mut self, escape: AutoEscape) {
        let word = match escape {
            AutoEscape::Name => "name",
            AutoEscape::Html => "html",
            AutoEscape::Json => "json",
            AutoEscape::None => "none",
        };
        self.set("autoescape", word.into());
    }

    /// Sets what becomes of numbers of contexts that are no whole ones of 64 bits.
    pub fn set_floats(&mut self, floats: Floats) {
        let word = match floats {
            Floats::Refused => "refused",
            Floats::Text => "text",
        };
        self.set("floats", word.into());
    }

    /// Sets the syntax: a map with the parts that `dalecolander.h` names, as `variable_start`.
    pub fn set_syntax(&mut self, syntax: Value) {
        self.set("syntax", syntax);
    }

    /// Compiles the templates, and opens a session with them, in which they are rendered often.
    ///
    /// # Errors
    ///
    /// What the engine tells of the settings, or of a template that is refused.
    pub fn open(&self) -> Result<Session, Error> {
        Session::open(&(self.said() + "}"))
    }

    /// The text of a template over a context, which is a map. It compiles the templates: [`Environment::open`] compiles them once.
    ///
    /// # Errors
    ///
    /// What the engine tells.
    pub fn render(&self, name: &str, context: &Value) -> Result<String, Error> {
        self.reply(Call::Render, name, context)
    }

    /// The names of a context that can matter to a template, in the order of their bytes.
    ///
    /// # Errors
    ///
    /// What the engine tells.
    pub fn context_names(&self, name: &str) -> Result<Vec<String>, Error> {
        let names = self.reply(Call::Names, name, &Value::None)?;
        let names: Value = names.parse().expect("the names are a list of texts");
        Ok(names.items().iter().filter_map(Value::as_str).map(str::to_owned).collect())
    }

    fn set(&mut self, name: &str, value: Value) {
        self.settings.insert(name.to_owned(), value);
    }

    fn reply(&self, call: Call, main: &str, context: &Value) -> Result<String, Error> {
        let request = format!("{},\"main\":{},\"context\":{context}}}", self.said(), Value::from(main));
        let (status, reply) = library::called(call, &request);
        match Status::of(status) {
            None => Ok(reply),
            Some(status) => Err(Error::of_reply(status, &reply)),
        }
    }

    // The beginning of a request: the templates and the settings.
    fn said(&self) -> String {
        let templates: Value = self.templates.iter().map(|(name, text)| (name.as_str(), text.as_str())).collect();
        let mut said = format!("{{\"templates\":{templates}");
        for (name, value) in &self.settings {
            said.push_str(&format!(",{}:{value}", Value::from(name.as_str())));
        }
        said
    }
}

//! Sessions: templates that are compiled once.
use crate::error::{Error, Status};
use crate::library::Opened;
use crate::value::Value;

/// Templates that are compiled once, to be rendered often. It stays on the thread that opened it: it is neither `Send` nor `Sync`.
///
/// ```
/// use dalecolander::{Environment, Value};
///
/// let mut environment = Environment::new();
/// environment.add_template("letter", "Dear {{ name }}");
/// let mut session = environment.open()?;
/// for name in ["Grace", "Alan"] {
///     let text = session.render("letter", &Value::from([("name", name)]))?;
///     assert_eq!(text, format!("Dear {name}"));
/// }
/// # Ok::<(), dalecolander::Error>(())
/// ```
///
/// ```compile_fail
/// let session = dalecolander::Environment::new().open().unwrap();
/// std::thread::spawn(move || drop(session));
/// ```
pub struct Session {
    opened: Opened,
}

impl Session {
    /// Opens a session by a request, which is JSON.
    pub(crate) fn open(request: &str) -> Result<Session, Error> {
        match Opened::open(request) {
            Ok(opened) => Ok(Session { opened }),
            Err((status, reply)) => Err(Error::of_reply(Status::of(status).unwrap_or(Status::Memory), &reply)),
        }
    }

    /// The text of a template over a context, which is a map.
    ///
    /// # Errors
    ///
    /// What the engine tells. The session stays as it was.
    pub fn render(&mut self, name: &str, context: &Value) -> Result<String, Error> {
        self.render_json(name, &context.to_string()).map(str::to_owned)
    }

    /// The same over a context that is JSON, as `serde_json::to_string` gives it; the text stands until the next call.
    ///
    /// # Errors
    ///
    /// What the engine tells. The session stays as it was.
    pub fn render_json(&mut self, name: &str, context: &str) -> Result<&str, Error> {
        let (status, reply) = self.opened.render(name, context);
        match Status::of(status) {
            None => Ok(reply),
            Some(status) => Err(Error::of_reply(status, reply)),
        }
    }
}

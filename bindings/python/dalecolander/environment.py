"""Environments and templates, with the calls that users of Jinja2 know."""
import threading
from typing import Any, Dict, List, Mapping, Optional

from .library import Session, names_of, text_of
from .values import json_of

# The name of a template that is made of a text.
FROM_STRING = "<template>"


class Environment:
    """Templates by their names, and how they are read and rendered.

    - `templates`: a mapping of names to texts;
    - `undefined`: "lenient", "chainable", "semistrict" or "strict";
    - `fuel`: a render ends when it is used up; `limit`: how deep it may go, 500 at most;
    - `builtins`: whether the builtin filters, tests and functions can be used;
    - `floats`: "refused", or "text": a float of a context becomes a text, as Python writes it;
    - `autoescape`: "name", "html", "json" or "none"; `True` is "html", and `False` is "none";
    - `syntax`: the parts of the syntax by their names, as `variable_start`, `trim_blocks`.

    The templates are compiled at the first render of each thread, and again after one is added.
    """

    def __init__(
        self,
        templates: Optional[Mapping[str, str]] = None,
        *,
        undefined: str = "lenient",
        fuel: Optional[int] = None,
        limit: Optional[int] = None,
        builtins: bool = False,
        floats: str = "refused",
        autoescape: Any = "name",
        **syntax: Any,
    ) -> None:
        self.templates: Dict[str, str] = dict(templates or {})
        escapes = {True: "html", False: "none"}.get(autoescape, autoescape)
        self.settings: Dict[str, Any] = {"undefined": undefined, "builtins": builtins, "floats": floats, "autoescape": escapes}
        self.settings.update({name: value for name, value in (("fuel", fuel), ("limit", limit)) if value is not None})
        if syntax:
            self.settings["syntax"] = syntax
        self._sessions = threading.local()

    def add_template(self, name: str, text: str) -> None:
        """Adds a template, in place of one of its name."""
        self.templates[name] = text
        self._sessions = threading.local()

    def get_template(self, name: str) -> "Template":
        """The template of a name. Whether it stands, a render tells."""
        return Template(self, name)

    def from_string(self, text: str) -> "Template":
        """A template of a text, which can name those of the environment."""
        other = Environment.__new__(Environment)
        other.__dict__.update(self.__dict__, templates={**self.templates, FROM_STRING: text}, _sessions=threading.local())
        return Template(other, FROM_STRING)

    def context_names(self, name: str) -> List[str]:
        """The names of a context that can matter to the template. It compiles the templates anew."""
        return names_of(json_of({**self.settings, "templates": self.templates, "main": name}))

    def _session(self) -> Session:
        """The session of this thread."""
        session = getattr(self._sessions, "session", None)
        if session is None:
            session = self._sessions.session = Session(json_of({**self.settings, "templates": self.templates}))
        return session


class Template:
    """A template of an environment."""

    def __init__(self, environment: Environment, name: str) -> None:
        self.environment = environment
        self.name = name
        self._name = text_of(name.encode())

    def render(self, *context: Mapping[str, Any], **names: Any) -> str:
        """The text of the template over a context: mappings, of which later ones count, and names over these.

        Raises a `TemplateError`: of the class of its outermost kind, with its places.
        """
        if len(context) == 1 and not names:
            return self.render_json(json_of(context[0]))
        said: Dict[str, Any] = {}
        for mapping in context:
            said.update(mapping)
        said.update(names)
        return self.render_json(json_of(said))

    def render_json(self, context: bytes) -> str:
        """The same over a context that is written as JSON already."""
        return self.environment._session().render(self._name, context)

    def context_names(self) -> List[str]:
        """The names of a context that can matter to the template."""
        return self.environment.context_names(self.name)

"""The errors of the engine: one class for each kind, under one for each way in which a request ends."""
from typing import Dict, NamedTuple, Sequence, Tuple, Type


class Place(NamedTuple):
    """A place in a template: lines and columns from 1 on, and bytes from 0 on."""

    name: str
    line: int
    column: int
    start: int
    end: int

    def __str__(self) -> str:
        return f"{self.name}:{self.line}:{self.column}"


class TemplateError(Exception):
    """An error of the engine.

    `kinds` are its kinds, outermost first, `places` are the places where it happened, `text` is what was written before it, and
    `status` is that of the program.
    """

    def __init__(self, status: int, kinds: Sequence[str], places: Sequence[Place] = (), text: str = "", member: str = "") -> None:
        self.status = status
        self.kinds: Tuple[str, ...] = tuple(kinds)
        self.places: Tuple[Place, ...] = tuple(places)
        self.text = text
        self.member = member
        said = ": ".join(self.kinds) or (f"malformed request: {member}" if member else "no memory")
        super().__init__(f"{said} at {self.places[0]}" if self.places else said)

    @property
    def name(self):
        """The name of the template where it happened, if that is known."""
        return self.places[0].name if self.places else None

    @property
    def line(self):
        """The line where it happened, if that is known."""
        return self.places[0].line if self.places else None


class RenderFailed(TemplateError):
    """A render ended with an error."""


class RequestRefused(TemplateError, ValueError):
    """A setting says nothing that it can say, or the syntax is refused."""


class ContextRefused(TemplateError, ValueError):
    """The context was refused."""


class TemplateRefused(TemplateError):
    """A template was refused, or the main one does not stand."""


class OutOfMemory(TemplateError, MemoryError):
    """Memory was refused."""


BY_STATUS: Dict[int, Type[TemplateError]] = {
    1: RenderFailed,
    2: RequestRefused,
    4: ContextRefused,
    5: TemplateRefused,
    6: OutOfMemory,
}

# The class of an error that ends a request so, with this as its outermost kind: made when it is first wanted.
kinds: Dict[Tuple[int, str], Type[TemplateError]] = {}


def error_of(status: int, told: dict) -> TemplateError:
    """The error that a reply tells: of a class that is named by its outermost kind, below that of its status."""
    base = BY_STATUS.get(status, TemplateError)
    names = told.get("kinds", [])
    made = base
    if names and names[0] != base.__name__:
        made = kinds.get((status, names[0])) or kinds.setdefault((status, names[0]), type(names[0], (base,), {}))
    places = [Place(**place) for place in told.get("places", [])]
    return made(status, names, places, told.get("text", ""), told.get("member", ""))

"""Dalecolander, a template engine of the Jinja2 kind.

    >>> from dalecolander import Environment
    >>> environment = Environment({"hello.txt": "Hello {{ name }}!"})
    >>> environment.get_template("hello.txt").render(name="World")
    'Hello World!'

A context goes to the engine as JSON: iterators, sets and tuples arrive as lists, mappings as maps, `None` prints `none`, and a
`float` goes as the environment's `floats` says. An object of a class of yours is refused with a `TypeError`.
"""
from .environment import Environment, Template
from .errors import (
    ContextRefused,
    OutOfMemory,
    Place,
    RenderFailed,
    RequestRefused,
    TemplateError,
    TemplateRefused,
    kinds,
)

__all__ = [
    "ContextRefused",
    "Environment",
    "OutOfMemory",
    "Place",
    "RenderFailed",
    "RequestRefused",
    "Template",
    "TemplateError",
    "TemplateRefused",
    "kinds",
]

"""Writes the cases of what failed calls on a state leave: failed_call_cases.py STDOUT_OF_BEFORE OUT_DIR

Each group has a heading and cases; answers are the model's. Only words that the table has.
"""
import json
import sys
import model
import macro_cases
from macro_cases import after, cm, m, t, written
from cases import GROUPS, af, gt, pt, st

GROUPS.clear()
macro_cases.EXTRA.clear()

TELL = {"tell": True}
BLOCK = {"current_block": True}
BARE = {"remove_globals": ["dict", "namespace", "range"]}
SPARE = {"remove_globals": ["dict", "range"]}
FILTERS = {
    "bad": {"fails": "MissingArgument"}, "out": {"fails": "OutOfFuel"}, "mac": {"macro": "m"}, "ren": {"rendered": "b"}, "rend": {"rendered": "d"}, "called": "call", "named": "name", "block": "block", "escape": "escape",
    "same": "first", "args": "arguments", "five": {"gives": 5}, "tomac": {"filter": "mac"}, "totb": {"test": "tb"}, "on": {"filter": "on"}, "down": {"down": "down"}, "holds": {"lookup": "ns"}, "mac_l": {"macro": "l_"}, "count": {"counts": "n", "macro": "m"},
    "first_a": {"sets": [["a", 1]], "macro": "m"}, "first_b": {"sets": [["b", 2]], "rendered": "b"},
}
TESTS = {"tm": {"macro": "m"}, "tb": {"rendered": "b"}, "yes": {"gives": 1}, "tomac": {"filter": "mac"}, "outside": {"fails": "OutOfFuel"}}
FUNCTIONS = {"fm": {"macro": "m"}, "fb": {"rendered": "b"}, "out_": {"fails": "OutOfFuel"}, "put": "set", "get": "get", "c": "call", "held_": {"lookup": "ns"}, "bad_": {"fails": "MissingArgument"}}


def w(case, words):
    """A case with what it brings, by words."""
    out = dict(case)
    for key, palette in (("filters", FILTERS), ("tests", TESTS), ("functions", FUNCTIONS)):
        mine = {n: d for n, d in palette.items() if n in words.split()}
        if mine:
            out[key] = mine
    return out


def rb(name):
    return {"render_block": name}


def lk(name):
    return {"lookup": name}


def fmt(value):
    return {"format": value}


def hid(**blocks):
    """Blocks that run nowhere by themselves."""
    return "{% if 0 %}" + "".join("{% block " + n + " %}" + b + "{% endblock %}" for n, b in blocks.items()) + "{% endif %}"


def b(body, name="b"):
    return "{% block " + name + " %}" + body + "{% endblock %}"


def fuels(c, ns):
    return [dict(c, fuel=n) for n in ns]


def new(c, *calls, main="t"):
    """Calls on a new state of the template."""
    return dict(c, main=main, calls=list(calls))


M1 = m("a", "<{{ a }}>")
MA = m("a", "{{ a }}")

# ------------------------------------------------------------------------------------------------ fuel

group = macro_cases.group

group("# macros that the fuel cuts, called on the state that a render left: all that was left is consumed then", [
    after(t(M1), cm("m", 2), TELL, cm("m", 2), TELL) | {"fuel": 7},
    *fuels(after(t(M1, **BARE), cm("m", 2), TELL, cm("m", 2), TELL), (3, 4, 8, 9, 13, 14)),
    *fuels(after(t(m("", "{{ 1 }}", "n") + m("a=n()", "{{ a }}"), **BARE), cm("m"), TELL), (12, 14, 15)),
    *fuels(after(t(m("", "[{{ self.b() }}]") + hid(b="B"), **BARE), cm("m"), TELL, rb("b"), TELL), (8, 9, 10)),
    *fuels(after(t(m("", 'a{% include "i" %}'), ("i", "I{{ 1 }}"), **BARE), cm("m"), TELL), (6, 8)),
    *fuels(after(t(m("l_", "{% for i in l_ recursive %}{{ i }}{% if i %}{{ loop([0]) }}{% endif %}{% endfor %}"), **BARE), cm("m", [1]), TELL, cm("m", []), TELL), (22, 23)),
    *fuels(w(after(t(m("", "x{{ 1 }}"), **BARE), cm("fm"), TELL), "fm"), (5, 6)),
    after(t(M1, **BARE), cm("m", 2), TELL, cm("m", 2), TELL) | {"fuel": 18446744073709551615},
])

group("# blocks that the fuel cuts, rendered on a state: within `super()`, includes and loops too", [
    *fuels(new(t(b("x{{ y }}"), **BARE), rb("b"), TELL, rb("b"), TELL), (0, 1, 3, 4, 6, 7)),
    *fuels(after(t('{% extends "p" %}' + b("y{{ super() }}z"), ("p", b("x{{ 1 }}")), **BARE), rb("b"), TELL, rb("b"), TELL), (10, 12, 13)),
    *fuels(new(t(b('a{% include "i" %}c'), ("i", "I{{ 1 }}"), **BARE), rb("b"), TELL), (4, 5, 6)),
    *fuels(after(t('{% extends "p" %}' + b("{{ super() }}"), ("p", b('{% include "i" %}')), ("i", "I"), **BARE), rb("b"), TELL), (8, 9)),
    *fuels(new(t(b('{% include "i" %}'), ("i", '{% extends "j" %}' + b("a{{ super() }}", "k")), ("j", b("b", "k")), **BARE), rb("b"), TELL), (6, 7)),
    *fuels(after(t("{% set y = 3 %}" + hid(b="{% for i in [1, 2] %}{% set y = i %}{{ y }}{% endfor %}"), **BARE), rb("b"), TELL, lk("i")), (9, 18)),
])

group("# filters and tests on a state that go on to macros and blocks, which the fuel cuts", [
    *fuels(w(after(t(MA, **BARE), af("mac", 2), TELL, af("mac", 2), TELL), "mac"), (4, 6, 7, 9, 10)),
    *fuels(w(after(t(MA, **BARE), pt("tm", 2), TELL, pt("tm", ""), TELL), "tm"), (6, 7, 10)),
    *fuels(w(new(t(b("x{{ 1 }}"), **BARE), af("ren", 1), TELL, af("ren", 1), TELL), "ren"), (0, 2, 3)),
    *fuels(w(new(t(b("x{{ 1 }}"), **BARE), pt("tb", 1), TELL), "tb"), (2, 3)),
    *fuels(w(after(t(MA, **BARE), af("tomac", 2), TELL), "mac tomac"), (6,)),
    *fuels(w(new(t(b("x{{ 1 }}"), **BARE), af("totb", 1), TELL), "totb tb"), (2,)),
    *fuels(w(after(t(MA, **BARE), pt("tomac", 0), TELL), "mac tomac"), (6,)),
    *fuels(w(after(t(m("", "{{ 1|ren }}") + hid(b="x{{ 1 }}"), **BARE), cm("m"), TELL), "ren"), (8,)),
    *fuels(w(after(t(m("", "a{{ 1|ren }}") + hid(b='{% include "i" %}'), ("i", "I"), **BARE), af("mac"), TELL), "mac ren"), (8,)),
])

ZEROS = m("", "{{ 1 }}") + m("", "", "z") + hid(b="{{ 1 }}", e="")
FREE = [cm("z"), rb("e"), af("five"), pt("yes"), fmt("a"), st("n", 3), gt("n"), cm("range", 2), lk("m")]
group("# behind a cut what takes no steps is done, and what fails before its first step fails as ever", [
    w(after(t(ZEROS, **BARE), cm("m"), cm("z"), rb("e"), cm("m"), rb("b"), TELL, fuel=8), ""),
    w(after(t(ZEROS), rb("b"), *FREE, cm("m"), TELL, fuel=8), "five yes"),
    w(after(t(ZEROS), af("mac"), *FREE, rb("b"), TELL, fuel=8), "mac five yes"),
    w(after(t(ZEROS), pt("tm"), cm("z"), rb("e"), pt("tb"), af("five"), TELL, fuel=8), "tm tb five"),
    *fuels(w(new(t(b("") + b("{{ 1 }}", "d"), **BARE), rb("b"), af("ren"), pt("tb"), TELL, rb("d"), TELL, rb("b")), "ren tb"), (0, 2)),
    after(t(m("", "{{ 1 }}", "n") + m("a", ""), **BARE), cm("m", 1), TELL, cm("m"), TELL) | {"fuel": 7},
    w(after(t(ZEROS + hid(r="x"), **BARE), cm("m"), cm("z", 1), cm("gone"), rb("gone"), af("gone"), pt("gone"), cm("x_"), af("bad"), TELL, fuel=9), "bad"),
    after(t("{% if 0 %}{% block r required %}{% endblock %}{% endif %}" + m("", "{{ 1 }}") + m("", "", "z"), **BARE), cm("m"), rb("r"), cm("z"), rb("r"), TELL) | {"fuel": 8},
    after(t(m("", "{{ 1 }}") + hid(b='{% extends "p" %}'), ("p", b("", "q")), **BARE), cm("m"), rb("b"), TELL) | {"fuel": 5},
    new(t(b('{% extends "p" %}'), ("p", ""), **BARE), rb("b"), rb("b"), TELL) | {"fuel": 0},
    new(t(b('{% autoescape "html" %}{% with %}{% endwith %}{% endautoescape %}'), **BARE), rb("b"), TELL) | {"fuel": 0},
    new(t(b('{% autoescape "html" %}{% with x = 1 %}{% endwith %}{% endautoescape %}'), **BARE), rb("b"), TELL) | {"fuel": 1},
])

group("# behind a cut the frames, the escape, the current block, the levels and the places of blocks are those before", [
    *fuels(after(t(("t.html", hid(b='{% autoescape "json" %}{{ [1] }}{{ 2 }}{% endautoescape %}{{ 3 }}')), **BARE), rb("b"), fmt("<"), TELL), (2, 4)),
    after(t(hid(b=b("{{ 1 }}{{ 2 }}", "c")), **BARE), rb("b"), BLOCK, TELL) | {"fuel": 4},
    *fuels(after(t("{% set y = 1 %}" + hid(b='{% with v = 1 %}{% include "i" %}{% endwith %}'), ("i", "{% set y = 2 %}{% for z in [1] %}{{ z }}{% endfor %}"), **BARE), rb("b"), lk("v"), lk("z"), lk("loop"), TELL), (5, 7)),
    after(t(m("v", "{% set z = v %}{{ z }}"), **BARE), cm("m", 1), lk("v"), lk("z"), TELL) | {"fuel": 6},
    w(after(t(m("", "{{ 1 }}") + m("", "", "z"), **BARE), cm("m"), cm("z"), af("mac"), pt("tm"), cm("z"), af("five")), "mac tm five") | {"fuel": 7, "limit": 8},
    after(t(m("", "{{ 1 }}") + m("", "", "z"), **BARE), cm("m"), cm("z"), cm("m"), cm("z")) | {"fuel": 7, "limit": 7},
    after(t(hid(b='{% include "i" %}', e="{% with %}{% endwith %}"), ("i", "{{ 1 }}"), **BARE), rb("b"), rb("e"), rb("b"), rb("e"), TELL) | {"fuel": 3, "limit": 12},
    after(t('{% extends "p" %}' + b("{{ super() }}"), ("p", hid(b='{% extends "r" %}')), ("r", "{{ 1 }}{{ 2 }}"), **BARE), rb("b"), rb("b"), TELL) | {"fuel": 4},
    w(after(t('{% extends "p" %}' + b("{{ super() }}"), ("p", hid(b="{{ 1|named }}")), **BARE), rb("b"), af("named"), BLOCK, TELL), "named") | {"fuel": 4},
])

group("# faults that are no cuts: the steps before them are consumed, and the rest of the fuel is left", [
    *fuels(new(t(b("x{{ 1 // 0 }}"), **BARE), rb("b"), TELL, rb("b"), TELL), (0, 2, 3, 5)),
    *fuels(after(t(m("a", "{{ a }}{{ a.b.c }}"), **BARE), cm("m", 1), TELL, cm("m"), TELL), (10, 15)),
    after(t(M1, **BARE), cm("m", 1, 2), TELL, cm("gone"), TELL, cm("m", 3), TELL) | {"fuel": 9},
    *fuels(w(new(t(b('a{% include "i" %}'), ("i", "I{{ 1|bad }}"), **BARE), rb("b"), TELL), "bad"), (4, 5)),
    *fuels(w(after(t('{% extends "p" %}' + b("y{{ super() }}z") + m("", "M"), ("p", hid(b="x{{ 1|bad }}")), **BARE), rb("b"), TELL, cm("m"), TELL), "bad"), (10, 11)),
    *fuels(w(after(t(m("", "a{{ 1|bad }}"), **BARE), af("mac"), TELL, pt("tm"), TELL), "bad mac tm"), (6, 8)),
    w(new(t(b("a{{ 1|bad }}"), **BARE), pt("tb"), TELL, af("ren"), TELL, rb("b"), TELL), "bad tb ren") | {"fuel": 7},
    new(t(b("{{ 1 }}{% block c %}{% endblock %}"), **BARE), rb("b"), TELL, rb("c"), TELL) | {"fuel": 9, "limit": 1},
    w(after(t("{% set ns = namespace() %}{% set ns.a = ns %}" + m("", "{{ 1 }}"), **SPARE), cm("held_"), TELL, cm("m"), TELL), "held_") | {"fuel": 9},
    w(after(t("{% set ns = namespace() %}{% set ns.a = ns %}" + m("", "{{ 1 }}{{ ns }}"), **SPARE), cm("m"), TELL), "") | {"fuel": 13},
    new(t(b("{{ gone }}a"), **BARE), rb("b"), TELL, rb("b"), TELL) | {"fuel": 4, "undefined": "strict"},
    new(t(b("{{ [1]|gone }}") + b("{{ gone() }}", "c") + b("{% set a, b = [1] %}", "d"), **BARE), rb("b"), TELL, rb("c"), TELL, rb("d"), TELL) | {"fuel": 9},
    new(t(("t.json", b("{{ {1: 2} }}") + b("x", "c"))), rb("b"), TELL, rb("c"), TELL, main="t.json") | BARE | {"fuel": 6},
])

group("# a callable that states OutOfFuel cuts nothing: what was left of the fuel stays", [
    *[w(after(t(m("", "{{ 1 }}"), **BARE), af("out", 1), TELL, pt("outside", 1), cm("out_"), TELL, cm("m"), TELL), "out outside out_") | more for more in ({"fuel": 5}, {})],
    w({"calls": [af("out"), pt("outside"), cm("out_"), TELL], "fuel": 0}, "out outside out_"),
    *fuels(w(new(t(b("x{{ 1|out }}y"), **BARE), rb("b"), TELL, rb("b"), TELL), "out"), (2, 3, 5)),
    w(new(t(b("x{{ 1|out }}y") + b("z", "c"), **BARE), rb("b"), rb("c"), TELL), "out"),
    *fuels(w(new(t(b('{% include "i" %}'), ("i", "{{ 1|out }}"), **BARE), rb("b"), TELL), "out"), (2, 3)),
    *fuels(w(after(t('{% extends "p" %}' + b("{{ super() }}"), ("p", hid(b="{% if out_() %}{% endif %}")), **BARE), rb("b"), TELL), "out_"), (4, 5)),
    *fuels(w(after(t(m("", "{{ 1 is outside }}"), **BARE), af("mac"), TELL, cm("fm"), TELL), "mac fm outside"), (5,)),
    *[dict(new(t(b("{{ 1|p }}") + b("z", "c"), **BARE), af("p"), rb("b"), TELL, rb("c"), TELL), filters={"p": {"fails": kinds}}, fuel=4) for kinds in (["OutOfFuel", "OutOfFuel"], ["InvalidOperation", "OutOfFuel"], ["OutOfFuel", "UndefinedError"], ["BadInclude", "OutOfFuel"], ["OutOfFuel", "OutOfMemory"])],
    *fuels(dict(new(t(b("{{ 1 }}x"), **BARE), fmt(1), rb("b"), TELL, rb("b"), TELL), formatter={"fails": "OutOfFuel"}), (2,)),
    *fuels(dict(new(t(b('{% include "i" %}'), ("i", "I"), **BARE), {"get_template": "i"}, rb("b"), TELL), join={"fails": "OutOfFuel"}), (2,)),
    *fuels(dict(new(t(b("{{ [1].gone() }}"), **BARE), rb("b"), TELL), method={"fails": "OutOfFuel"}), (2,)),
    w(after(t(m("", "{{ 1|out }}") + m("", "N", "n"), **BARE), cm("m"), cm("m"), cm("n"), TELL, fuel=10), "out"),
])

# ------------------------------------------------------------------------------------------------ what a failed call leaves

Y = "{% set y = 1 %}"
RUIN = "{{ 1|bad }}"
group("# behind a failed call on a state its frames are those before: nothing that was stored or opened in it is known", [
    *[w(after(t(Y + hid(b=body), *more, **BARE), rb("b"), lk("v"), lk("y"), TELL), "bad") for body, more in [
        ("{% set y = 2 %}{% set v = 3 %}" + RUIN, ()), ("{% for v in [1, 2] %}{% set y = v %}{% if v == 2 %}" + RUIN + "{% endif %}{% endfor %}", ()), ("{% for v in [1, 0] if 2 // v %}{% endfor %}", ()),
        ('{% include "i" %}', (("i", "{% set v = 2 %}{% set y = 3 %}" + RUIN),)), ('{% set v = 5 %}{% import "i" as q %}', (("i", "{% set v = 2 %}{% set y = 3 %}" + RUIN),)), ('{% with v = 5 %}{% from "i" import v, y %}{% endwith %}', (("i", "{% set v = 2 %}{% set y = 3 %}" + RUIN),)), ("{% with v = 2 %}" + b("{% set y = 3 %}" + RUIN, "c") + "{% endwith %}", ()),
        ("{% for v in [[0]] recursive %}{{ loop(v) }}{% endfor %}", ()), ("{% with v = 1 %}{% with y = 2 %}{% for i in [1] %}{% for j in [1] %}" + RUIN + "{% endfor %}{% endfor %}{% endwith %}{% endwith %}", ()),
    ]],
    w(after(t(Y + hid(b="{% for v in [1] %}{{ loop.gone.a }}{% endfor %}"), **BARE), rb("b"), lk("loop"), TELL, af("ren"), lk("loop"), pt("tb"), lk("v"), TELL), "ren tb"),
    *[w(after(t(Y + made, *more, **BARE), call, lk("v"), lk("z"), lk("y"), TELL), words) for made, more, call, words in [
        (m("v", "{% set z = v %}" + RUIN), (), cm("m", 1), "bad"), (m("v, z=gone.a", ""), (), cm("m", 1), ""), (m("v", '{% include "i" %}'), (("i", "{% set z = v %}{% set y = 4 %}" + RUIN),), cm("m", 1), "bad"), (m("v", '{% from "i" import z %}'), (("i", "{% set z = 1 %}" + RUIN),), pt("tm", 1), "bad tm"),
        (m("", "{{ caller(1) }}", "p") + m("", "{% call(v) p() %}{% set z = v %}" + RUIN + "{% endcall %}"), (), cm("m"), "bad"),
    ]],
    w(new(t(b("{% set v = 1 %}{% for z in [1] %}" + RUIN + "{% endfor %}"), **BARE), rb("b"), TELL, lk("v"), lk("z"), lk("loop"), rb("b"), TELL), "bad"),
    w(after(t('{% extends "p" %}' + b("{% set v = 1 %}{{ super() }}"), ("p", Y + hid(b="{% for z in [1] %}" + RUIN + "{% endfor %}")), **BARE), rb("b"), lk("v"), lk("z"), TELL), "bad"),
])

group("# behind a failed call on a state the escape, the current block and the template's name are those before", [
    *[w(after(t(("t.html", hid(b=body)), *more, **BARE), rb("b"), fmt("<"), TELL), "bad") for body, more in [
        ('{% autoescape "json" %}' + RUIN + "{% endautoescape %}", ()), ('{% autoescape "json" %}{% autoescape false %}' + RUIN + "{% endautoescape %}{% endautoescape %}", ()), ('{% include "i.json" %}', (("i.json", RUIN),)), ('{% import "i" as i %}', (("i", '{% autoescape "json" %}' + RUIN + "{% endautoescape %}"),)), ('{% set s %}{% autoescape "none" %}' + RUIN + "{% endautoescape %}{% endset %}", ()), ("{% autoescape 5 %}{% endautoescape %}{% autoescape \"gone\" %}{% endautoescape %}", ()),
    ]],
    w(after(t(("t.html", m("", '{% autoescape false %}' + RUIN + "{% endautoescape %}") + m("a", "{{ a }}", "n")), **BARE), cm("m"), cm("n", "<"), af("mac"), af("escape"), TELL), "bad mac escape"),
    w(after(t(("t.html", m("", '{% autoescape false %}{{ 1|ren }}{% endautoescape %}') + hid(b="{% autoescape true %}" + RUIN + "{% endautoescape %}")), **BARE), af("mac"), fmt("<"), TELL), "bad mac ren"),
    w(after(t(hid(b=b(RUIN, "c"), d="{{ 1|block }}"), **BARE), rb("b"), BLOCK, af("block"), rb("d"), BLOCK, rb("c"), BLOCK), "bad block"),
    w(new(t(b("{{ self.c() }}") + b("{{ 1|block }}" + RUIN, "c"), **BARE), rb("b"), BLOCK, af("block"), pt("tb"), BLOCK, TELL), "bad block tb"),
    w(after(t('{% extends "p" %}' + b("{{ super() }}"), ("p", hid(b="{{ 1|named }}" + RUIN)), **BARE), rb("b"), BLOCK, af("named"), TELL), "bad named"),
    w(after(t(m("", '{% include "i" %}') + hid(b='{% include "i" %}'), ("i", RUIN), **BARE), rb("b"), af("named"), cm("m"), af("named"), TELL), "bad named"),
    w(after(t('{% from "i" import m %}', ("i", m("", "{{ 1|named }}" + RUIN)), **BARE), cm("m"), af("named"), af("mac"), TELL), "bad named mac"),
    w(after(t(hid(b='{% extends "p" %}'), ("p", "{{ 1|named }}" + RUIN), **BARE), rb("b"), af("named"), BLOCK, TELL), "bad named"),
])

D = {"d": "D" + b("E", "e")}
group("# a call on a state that fails in the middle of captures leaves none: what is rendered behind it is there", [
    *[w(after(t(hid(b=body, **D), *more, **BARE), rb("b"), rb("d"), af("rend"), rb("b"), rb("d")), "bad rend same") for body, more in [
        ("x{% set s %}a" + RUIN + "{% endset %}", ()), ("{% set s %}a{% set r %}b" + RUIN + "{% endset %}{% endset %}", ()), ('{% import "i" as i %}', (("i", "a" + RUIN),)), ('{% from "i" import v %}', (("i", "a" + RUIN),)), ('{% import "i" as i %}', (("i", '{% from "j" import v %}'), ("j", "a" + RUIN))),
        ('{{ self.c() ~ "" }}' + hid(c="a" + RUIN), ()), ('{% set s %}{% extends "p" %}' + RUIN + "{% endset %}", (("p", "P"),)), ('{% import "i" as i %}', (("i", '{% extends "p" %}{% set s %}' + RUIN + "{% endset %}"), ("p", "P"))), ('{% include "i" %}', (("i", '{% extends "p" %}' + RUIN), ("p", "P"))),
        
    ]],
    *[w(after(t(made + hid(**D), *more, **BARE), *calls_, rb("d"), cm("n", 1)), words) for made, more, calls_, words in [
        (m("", "x{% set s %}a" + RUIN + "{% endset %}") + m("a", "{{ a }}", "n"), (), (cm("m"), rb("d"), af("mac"), rb("d"), pt("tm")), "bad mac tm"), (m("", '{% extends "p" %}' + RUIN) + m("a", "{{ a }}", "n"), (("p", "P"),), (cm("m"), rb("d"), af("mac")), "bad mac"), (m("", "{% set s %}{{ self.b() ~ 1 }}{% endset %}") + hid(b="{% set s %}" + RUIN + "{% endset %}") + m("a", "{{ a }}", "n"), (), (af("mac"),), "bad mac"),
        (m("", "{% filter same %}{{ caller() }}{% endfilter %}", "p") + m("", "{% call p() %}{% set s %}" + RUIN + "{% endset %}{% endcall %}") + m("a", "{{ a }}", "n"), (), (cm("m"),), "bad same"), (m("", "{% set s %}{{ 1|ren }}{% endset %}") + hid(b="b" + RUIN) + m("a", "{{ a }}", "n"), (), (cm("m"), af("ren"), pt("tb")), "bad ren tb"),
    ]],
    w(after(t('{% extends "p" %}' + b('{% set s %}{{ super() ~ "" }}{% endset %}'), ("p", hid(b="{% set s %}" + RUIN + "{% endset %}", **D)), **BARE), rb("b"), rb("d"), af("ren"), af("rend")), "bad ren rend"),
    w(new(t(b("{% set s %}a" + RUIN + "{% endset %}") + b("D" + b("E", "e"), "d"), **BARE), rb("b"), rb("d"), af("ren"), rb("d"), TELL), "bad ren"),
    w(after(t(hid(b="{% set s %}" + RUIN + "{% endset %}", **D), **BARE), rb("b"), TELL, rb("d"), TELL), "bad") | {"fuel": 8},
])

ON = m("", "{% set ns.n = 1 %}", "on")
ONCE = "{% if ns.n %}{% set ns.n = 0 %}" + RUIN + "{% endif %}"
NS = "{% set ns = namespace(n=0, k=0) %}"
group("# behind a fault in `super()` the place among a block's bodies is the one before", [
    *[w(after(t(NS + '{% extends "p" %}' + body + ON, *more, **SPARE), cm("on"), *calls_), words) for body, more, calls_, words in [
        (b("y{{ super() }}z"), (("p", b(ONCE + "x")),), (rb("b"), rb("b"), BLOCK, rb("b")), "bad"), (b('y{{ super() ~ "z" }}'), (("p", b(ONCE + "x")),), (rb("b"), rb("b"), BLOCK), "bad"), (b("y{{ super() }}{{ super() }}"), (("p", b("x" + ONCE)),), (rb("b"), rb("b")), "bad"),
        (b("3{{ super() }}"), (("p", '{% extends "q" %}' + b("2{{ super() }}")), ("q", b("1" + ONCE))), (rb("b"), rb("b"), rb("b")), "bad"), (b("3{{ super() }}"), (("p", '{% extends "q" %}' + b(ONCE + "2{{ super() }}")), ("q", b("1"))), (rb("b"), rb("b"), rb("b")), "bad"),
        (b("2{{ super() }}"), (("p", b("1{% if ns.k %}" + ONCE + "{% else %}{% set ns.k = 1 %}{{ self.b() }}{% set ns.k = 0 %}{% endif %}")),), (rb("b"), rb("b")), "bad"),
        (b("y{{ super() }}"), (("p", b('{% include "i" %}')), ("i", ONCE + "I")), (rb("b"), rb("b")), "bad"), (b("y{{ super() }}"), (("p", b(ONCE + "x")),), (af("ren"), af("ren"), cm("on"), pt("tb"), pt("tb"), rb("b")), "bad ren tb"),
        (b("y{{ super() }}") + b("{{ self.b() }}!", "c"), (("p", b(ONCE + "x") + b("", "c")),), (rb("c"), rb("c"), rb("b")), "bad"), (b("y{{ super() }}") + m("", "{% if ns %}{{ self.b() }}{% endif %}"), (("p", b(ONCE + "x")),), (cm("m"), cm("m"), cm("on"), af("mac"), rb("b")), "bad mac"),
        (b("y{% set s %}{{ super() }}{% endset %}{{ s }}"), (("p", b("{% set s %}" + ONCE + "x{% endset %}{{ s }}")),), (rb("b"), rb("b")), "bad"),
    ]],
    after(t('{% extends "p" %}' + b("y{{ super() }}"), ("p", hid(b="{{ super() }}")), **BARE), rb("b"), rb("b"), TELL),
    w(after(t(hid(b='{% include "i" %}'), ("i", '{% extends "j" %}' + b("y{{ super() }}", "k")), ("j", b("x" + RUIN, "k")), **BARE), rb("b"), rb("b"), rb("k")), "bad"),
])

P = ("p", b("P") + b("Q", "q"))
group("# what an `extends` loaded before a call on a state failed stays, but for that of macros, includes and imports", [
    w(after(t(hid(b='{% extends "p" %}' + RUIN), ("p", b("Q", "q")), **BARE), rb("q"), rb("b"), rb("q"), rb("b"), rb("q")), "bad"), w(after(t(hid(b='{% extends "p" %}' + RUIN), ("p", b("Q", "q")), **BARE), af("ren"), rb("q"), pt("tb")), "bad ren tb"),
    w(after(t(m("", '{% extends "p" %}' + RUIN), ("p", b("Q", "q")), **BARE), cm("m"), rb("q"), cm("m"), af("mac"), rb("q")), "bad mac"), w(after(t(hid(b='{% include "i" %}'), ("i", '{% extends "p" %}' + RUIN), ("p", b("Q", "q")), **BARE), rb("b"), rb("q"), rb("b")), "bad"),
    w(after(t(hid(b='{% import "i" as i %}', c='{% from "i" import v %}'), ("i", '{% extends "p" %}' + RUIN), ("p", b("Q", "q")), **BARE), rb("b"), rb("q"), rb("b"), rb("c"), rb("q"), rb("c")), "bad"),
    w(after(t(m("", '{% extends "r" %}' + RUIN) + hid(b='{% extends "p" %}{{ m() }}'), ("p", b("Q", "q")), ("r", b("S", "s")), **BARE), rb("b"), rb("q"), rb("s"), cm("m"), rb("s"), rb("b")), "bad"),
    w(after(t(hid(b='{% extends "p" %}'), ("p", RUIN + hid(q="Q")), **BARE), rb("b"), rb("q"), rb("b")), "bad"), w(after(t(hid(b='{% extends "p" %}'), ("p", '{% extends "r" %}' + hid(q="Q")), ("r", RUIN + hid(s="S")), **BARE), rb("b"), rb("q"), rb("s"), rb("b")), "bad"),
    after(t(hid(b='{% extends "p" %}{% extends "r" %}', c='{% extends "r" %}'), ("p", b("Q", "q")), ("r", b("S", "s")), **BARE), rb("b"), rb("q"), rb("s"), rb("c"), rb("s")),
    *[w(after(t(hid(b="B{{ super() }}") + more, *others, **BARE), rb("b"), *calls_, rb("b")), "bad") for more, others, calls_ in [
        (hid(e='{% extends "p" %}' + RUIN), (("p", hid(b="P")),), (rb("e"),)), (m("", '{% extends "p" %}' + RUIN, "e"), (("p", hid(b="P")),), (cm("e"),)), (hid(e='{% include "i" %}'), (("i", '{% extends "p" %}' + RUIN), ("p", hid(b="P"))), (rb("e"),)), (hid(e='{% extends "p" %}', f='{% extends "r" %}' + RUIN), (("p", hid(b="P{{ super() }}")), ("r", hid(b="R"))), (rb("e"), rb("b"), rb("f"))),
    ]],
    w(after(t("{% if 0 %}{% block b required %}{% endblock %}{% endif %}" + hid(e='{% extends "p" %}' + RUIN), ("p", hid(b="P")), **BARE), rb("b"), rb("e"), rb("b")), "bad"),
    *fuels(after(t(hid(b='{{ 1 }}{% extends "p" %}{{ 2 }}'), ("p", hid(q="")), **BARE), rb("q"), rb("b"), rb("q"), TELL), (2, 3, 5)),
])

group("# temps, namespaces, loops and closures keep what a failed call on a state changed", [
    w(after(t(hid(b='{% do put("n", 5) %}' + RUIN, c='{{ get("n") }}'), **BARE), rb("b"), gt("n"), rb("c"), st("n", 6), rb("c"), af("ren"), rb("c")), "bad put get ren"),
    w(after(t(m("", RUIN) + hid(b=RUIN), **BARE), af("first_a"), gt("a"), af("first_b"), gt("b"), af("count"), af("count"), gt("n")), "bad first_a first_b count"), w(new(t(b('{% do put("n", 5) %}{{ super() }}'), **BARE), rb("b"), gt("n")), "put"),
    w(after(t('{% extends "p" %}' + b("{{ super() }}"), ("p", hid(b='{% do put("n", 5) %}{% include "i" %}')), ("i", '{% do put("k", get("n") + 1) %}' + RUIN), **BARE), rb("b"), gt("n"), gt("k")), "bad put get"),
    w(after(t(NS + m("", "{% set ns.n = ns.n + 1 %}" + RUIN) + hid(b="{% set ns.n = ns.n + 1 %}" + RUIN, c="{{ ns.n }}"), **SPARE), rb("b"), cm("m"), af("ren"), pt("tm"), rb("c"), lk("ns")), "bad ren tm"),
    w(after(t(NS + hid(b="{% set ns.a = namespace(z=1) %}{% set ns.l_ = [1] %}" + RUIN, c="{{ ns }}"), **SPARE), rb("b"), rb("c"), rb("b"), rb("c")), "bad"),
    w(after(t(NS + hid(b=m("", "{{ z }}", "n") + "{% set ns.m = n %}{% set z = 4 %}" + RUIN, c="{{ ns.m() }}"), **SPARE), rb("b"), rb("c"), lk("z")), "bad"), w(after(t(NS + Y + m("", "{{ y }}") + hid(b="{% set y = 2 %}" + m("", "{{ y }}", "n") + "{% set ns.m = n %}{% set y = 3 %}" + RUIN, c="{{ ns.m() }}{{ m() }}{{ y }}"), **SPARE), rb("b"), rb("c")), "bad"),
    w(after(t(NS + hid(b='{% for z in [7, 8] %}' + m("", "{{ z }}{{ loop.index }}", "n") + "{% set ns.m = n %}{% if z == 8 %}" + RUIN + "{% endif %}{% endfor %}", c="{{ ns.m() }}"), **SPARE), rb("b"), rb("c")), "bad"),
    w(after(t(NS + hid(b="{% for i in [1, 2, 3] %}{% set ns.l_ = loop %}{% if i == 2 %}" + RUIN + "{% endif %}{% endfor %}", c="{{ ns.l_ }}{{ ns.l_.index }}{{ ns.l_.previtem }}{{ ns.l_.nextitem }}{{ ns.l_.last }}"), **SPARE), rb("b"), rb("c")), "bad"),
    w(after(t(NS + "{% for i in [1] %}{% set ns.l_ = loop %}{% do loop.changed(1) %}{% endfor %}" + hid(b="{{ ns.l_.changed(7) }}" + RUIN, c="{{ ns.l_.changed(7) }}{{ ns.l_.changed(1) }}"), **SPARE), rb("b"), rb("c")), "bad"),
    w(after(t(NS + hid(b=m("a", "<{{ a }}>", "n") + "{% set ns.m = n %}" + '{% include "i" %}', c="{{ ns.m(1) }}{{ ns.k(2) }}"), ("i", m("a", "({{ a }})", "k") + "{% set ns.k = k %}" + RUIN), **SPARE), rb("b"), rb("c"), lk("n"), lk("k")), "bad"),
])

group("# behind failed calls on a state there are as many levels as before", [
    w(after(t(hid(b='{% include "i" %}', c='{% include "j" %}'), ("i", RUIN), ("j", "J"), **BARE), rb("b"), rb("b"), rb("c"), af("ren"), rb("c")), "bad ren") | {"limit": 12},
    w(after(t(m("", RUIN) + m("", "N", "n"), **BARE), cm("m"), cm("m"), cm("n")), "bad") | {"limit": 7}, w(after(t(m("", "{{ n() }}") + m("", "N", "n"), **BARE), cm("m"), cm("n"), cm("m"), cm("n")), "") | {"limit": 12},
    w(after(t(m("", RUIN) + m("", "N", "n"), **BARE), af("mac"), pt("tm"), af("mac"), cm("n"), cm("fm")), "bad mac tm fm") | {"limit": 8}, w(after(t(hid(b="b", c="{% with %}{% with %}{% endwith %}{% endwith %}"), **BARE), rb("c"), rb("c"), rb("b"), af("ren")), "ren") | {"limit": 3},
    w(after(t(hid(b="b"), **BARE), af("on", 1), af("on", 1), af("down", 1), af("down", 2), rb("b"), af("ren")), "on down ren") | {"limit": 3}, w(new(t(b("b") + b(b("", "e"), "c"), **BARE), af("on", 1), rb("c"), af("ren"), rb("b"), rb("c"), rb("e")), "on ren") | {"limit": 1},
    w(after(t(hid(b="{% for i in [[[[]]]] recursive %}{{ loop(i) }}{% endfor %}", c="{% for i in [[[]]] recursive %}{{ loop(i) }}c{% endfor %}"), **BARE), rb("b"), rb("c"), rb("b"), rb("c")), "") | {"limit": 5},
    after(t('{% extends "p" %}' + b("y{{ super() }}") + b("c", "c"), ("p", hid(b="{% with %}{% endwith %}x") + b("", "c")), **BARE), rb("b"), rb("c"), rb("b"), rb("c")) | {"limit": 3},
])

# ------------------------------------------------------------------------------------------------ rounds

GONE = "{% if not i %}{{ gone.a }}{% endif %}"


def rounds(body, *rest, **blocks):
    """A recursive loop that a name holds behind it; then more, and blocks that run nowhere by themselves."""
    return "{% set ns = namespace() %}{% for i in [3] recursive %}{% if i == 3 %}{% set ns.l_ = loop %}{% endif %}" + body + "{% endfor %}{% set l_ = ns.l_ %}" + "".join(rest) + hid(**blocks, d="D" + b("E", "e"))


KEPT = "{% set q %}a{{ i }}" + GONE + "{% endset %}{{ q }}"
ROUNDS = (43, 57, 60)
BY = "{{ l_([6, 0]) }}"
group("# rounds called by name that fail in a capture: behind the call on a state no capture is open", [
    *[w(after(t(rounds(KEPT, b=body), *more, **SPARE), rb("b"), rb("d"), af("ren"), rb("d")), "ren " + words) for body, more, words in [
        ("x" + BY, (), ""), ("{% set s = l_([6, 0]) %}", (), ""), ("{% set s %}x" + BY + "y{% endset %}", (), ""), ("{% filter same %}" + BY + "{% endfilter %}", (), "same"), ("{% for k in l_([6, 0]) %}{% endfor %}", (), ""), ("{{ 1|args(l_([6, 0])) }}", (), "args"), ("{{ l_([l_([0])]) }}", (), ""),
        ("{% set s %}{{ self.c() ~ 1 }}{% endset %}" + hid(c=BY), (), ""), ('{% set s %}{% include "i" %}{% endset %}', (("i", BY),), ""), ('{% import "i" as i %}', (("i", "x" + BY),), ""), ('{% from "i" import v %}', (("i", "{% set v %}" + BY + "{% endset %}"),), ""), ("{% set s %}{% for k in [1, 0] %}{{ l_([k]) }}{% endfor %}{% endset %}", (), ""),
    ]],
    w(after(t(rounds(KEPT, b="x" + BY), **SPARE), pt("tb"), rb("d"), cm("fb"), rb("d"), lk("q"), lk("i"), TELL), "tb fb"),
    w(after(t(rounds(KEPT, m("", "x" + BY)), **SPARE), cm("m"), rb("d"), af("mac"), rb("d"), pt("tm"), cm("fm"), rb("d"), lk("q"), lk("i"), TELL), "mac tm fm"),
    w(after(t(rounds(KEPT, m("l_", "{% set s %}" + BY + "{% endset %}", "n"), m("", "{{ n(l_) }}")), **SPARE), cm("m"), rb("d"), af("mac"), rb("d")), "mac"),
    w(after(t(rounds(KEPT, m("a", BY), b="{% set s %}x{{ 1|mac }}{% endset %}"), **SPARE), rb("b"), rb("d"), af("ren"), rb("d")), "mac ren"),
    w(after(t(rounds(KEPT, m("", "{% if 0 %}{{ l_ }}{% endif %}{% set s %}x{{ 1|ren }}{% endset %}"), b=BY), **SPARE), cm("m"), rb("d"), af("mac"), rb("d")), "mac ren"),
    w(after(t(rounds(KEPT, m("a", BY), b="{% set s %}{{ 1 is tm }}{% endset %}"), **SPARE), rb("b"), rb("d")), "tm"),
    w(after(t(rounds(KEPT, m("", "[{{ caller() }}]", "p"), b="{% call p() %}{% set s %}" + BY + "{% endset %}{% endcall %}"), **SPARE), rb("b"), rb("d"), rb("b"), rb("d")), ""),
    w(after(t(rounds(KEPT, b=BY, c="{{ l_([6, 5]) }}"), **SPARE), rb("b"), rb("c"), rb("b"), rb("c"), rb("d")), ""),
    *fuels(after(t(rounds(KEPT, b=BY), **SPARE), rb("b"), TELL, rb("d"), TELL), ROUNDS),
])

group("# rounds that fail within rounds, loops, `autoescape`, includes, imports and blocks: captures, frames and the escape are as before", [
    *[w(after(t(rounds(body, *made, b=block), *more, **SPARE), rb("b"), rb("d"), rb("b"), rb("d"), lk("i"), TELL), words) for body, made, block, more, words in [
        ("{% set q %}a{{ i }}" + GONE + "{% if i != 3 %}{{ loop([i - 1]) ~ 1 }}{% endif %}{% endset %}{{ q }}", (), "{{ l_([2]) }}", (), ""),
        ("{% set q %}a{{ i }}" + GONE + "{% if i != 3 %}{{ loop([i - 1]) }}{% endif %}{% endset %}{{ q }}", (), "{{ l_([2]) }}", (), ""),
        ("{% set q %}{% for j in [1, 2] %}{% set r %}{{ i }}{% if j == 2 %}" + GONE + "{% endif %}{% endset %}{{ r }}{% endfor %}{% endset %}{{ q }}", (), "{{ l_([6, 0]) }}", (), ""),
        ("{% set q %}{% for i in [i] recursive %}{{ i }}" + GONE + "{% endfor %}{% endset %}{{ q }}", (), "{% for k in [6, 0] recursive %}{{ l_([k]) }}{% endfor %}", (), ""),
        ("{% set q %}{% for j in [0, 1] %}{% if j %}{% break %}{% endif %}{{ i }}{% endfor %}" + GONE + "{% endset %}{{ q }}", (), "{{ l_([6, 0]) }}", (), ""),
        ('{% autoescape "html" %}{% set q %}<{{ "<" }}' + GONE + "{% endset %}{% endautoescape %}{{ q }}", (), '{{ l_([6, 0]) }}', (), ""),
        ("{% set q %}{{ i }}" + GONE + "{% endset %}{{ q }}", (), '{% autoescape "json" %}{% set s %}{{ l_([6, 0]) }}{% endset %}{% endautoescape %}', (), ""),
        ('{% set q %}{% include "i" %}{% endset %}{{ q }}', (), "{{ l_([6, 0]) }}", (("i", "<{{ i }}>" + GONE),), ""),
        ('{% set q %}{% import "i" as n %}{{ n }}{% endset %}{{ q }}', (), "{{ l_([6, 0]) }}", (("i", "<{{ i }}>" + GONE),), ""),
        ('{% from "i" import v %}{{ v }}', (), "{% set s %}{{ l_([6, 0]) }}{% endset %}", (("i", "{% set v %}{{ i }}" + GONE + "{% endset %}"),), ""),
        (b("{% set q %}{{ i }}" + GONE + "{% endset %}{{ q }}", "c"), (), "{{ l_([6, 0]) }}", (), ""),
        ("{% with j = i %}{% set q %}{{ j }}" + GONE + "{% endset %}{{ q }}{% endwith %}", (), "{% with i = 5 %}{{ l_([6, 0]) }}{% endwith %}", (), ""),
        ('{% if i == 6 %}{% extends "p" %}{% endif %}' + GONE, (), "{{ l_([6, 0]) }}", (("p", "P"),), ""),
        ('{% if i == 6 %}{% extends "p" %}{% endif %}' + GONE, (), '{% include "i" %}', (("i", "{{ l_([6, 0]) }}"), ("p", "P")), ""),
        ("{% set q %}{{ i|same }}" + GONE + "{% endset %}{{ q }}", (), '{% include "j.html" %}', (("j.html", "{% set s %}{{ l_([6, 0]) }}{% endset %}"),), "same"),
        ("{% set q %}{{ i }}{% endset %}{{ q }}", (), "{{ l_(5) }}{{ l_([1]) }}", (), ""),
    ]],
    w(after(t(rounds("{% set q %}" + GONE + '{% if i == 9 %}{{ l_([0]) ~ "" }}{% endif %}{{ i }}{% endset %}{{ q }}', b="{{ l_([9]) }}", c="{{ l_([8]) }}"), **SPARE), rb("b"), rb("c"), rb("d")), ""),
    w(after(t(rounds('{% if i == 6 %}{% extends "p" %}{% endif %}' + GONE, m("", BY)), ("p", b("Q", "z")), **SPARE), cm("m"), rb("d"), cm("m"), af("mac"), rb("d"), rb("z")), "mac"),
    w(after(t(rounds("{% if i != 3 %}{{ 1|mac }}{% endif %}{{ i }}", m("a", "{% set s %}a" + RUIN + "{% endset %}"), b="{{ l_([6]) }}"), **SPARE), rb("b"), rb("d"), af("ren"), rb("d")), "bad mac ren"),
    w(after(t('{% extends "p" %}' + b("y{{ l_([i_]) }}") , ("p", "{% set i_ = 6 %}" + rounds("{% if i != 3 %}{% set q %}{{ super() }}{% endset %}{{ q }}{% endif %}", b="{% if ns.n %}{% set ns.n = 0 %}{{ gone.a }}{% endif %}x", c="{% set ns.n = 1 %}")), **SPARE), rb("c"), rb("b"), rb("b"), rb("d"), BLOCK), ""),
    w(after(t('{% include "i" %}' + hid(b="{% set s %}{{ l_([6, 0]) }}{% endset %}", d="D{{ 1|named }}"), ("i", rounds("{{ 1|named }}" + GONE)), **SPARE), rb("b"), af("named"), rb("d"), TELL), "named"),
])

group("# a loop that a name or a namespace holds is called by nothing else on a state: the call fails, and what is rendered behind it is there", [
    *[w(after(t(rounds("{{ i }}", *made, b=block), **SPARE), *calls_, rb("d"), TELL), words) for made, block, calls_, words in [
        ((), "{% set s %}a{{ l_|called([1]) }}{% endset %}", (rb("b"), rb("d"), af("ren")), "called ren"), ((), "{% set s %}a{{ ns.l_|called([1]) }}{% endset %}", (pt("tb"),), "called tb"), ((), "{% set s %}a{{ c(l_, [1]) }}{% endset %}", (rb("b"),), "c"), ((), "{% set s %}a{{ ns.l_([1]) }}{% endset %}", (rb("b"),), ""), 
        ((m("", "{% set s %}a{{ l_|called([1]) }}{% endset %}"),), "", (cm("m"), af("mac"), pt("tm")), "called mac tm"), ((), "{% set s %}a{{ [1]|mac_l }}{% endset %}", (rb("b"), af("mac_l", [1])), "mac_l"), ((), "{% set s %}a{% call l_([1]) %}{% endcall %}{% endset %}", (rb("b"),), ""), ((), "", (cm("l_", [1]), cm("ns"), cm("l_")), ""), ((), "{% for k in [1] recursive %}{% set s %}a{{ loop|called([1]) }}{% endset %}{% endfor %}", (rb("b"), lk("loop"), lk("k")), "called"),
        ((), '{% autoescape "html" %}{% set s %}{{ l_|called([1]) }}{% endset %}{% endautoescape %}', (af("ren"), fmt("<")), "called ren"),
    ]],
])


def main():
    lines = open(sys.argv[1], encoding="utf-8").read().split("\n")
    decoder = json.JSONDecoder()
    seen = {l[:decoder.raw_decode(l)[1]] for l in lines if l.startswith("{")}
    headings = {l for l in lines if l.startswith("#")}
    print(written(sys.argv[2] + "/new", GROUPS, seen, headings), "new")


if __name__ == "__main__":
    model.threaded(main)

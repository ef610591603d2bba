"""Writes the cases of kinds that callables state: stated_kind_cases.py STDOUT_OF_BEFORE OUT_DIR

Each group has a heading and cases; answers are the model's. Only words that the table has.
"""
import json
import sys
import model
import macro_cases
import failed_call_cases
from macro_cases import after, call, cm, ends_at, m, t, written
from failed_call_cases import BARE, NS, SPARE, TELL, b, fmt, hid, lk, new, rb
from cases import GROUPS, af, gt, pt, st

GROUPS.clear()
macro_cases.EXTRA.clear()
group = macro_cases.group

MEMORY, SINK, CODE = "OutOfMemory", "WriteFailure", "BadStream"
SINK_OF = [SINK, "UndefinedError"]
MEMORY_OF = ["OutOfMemory", "InvalidOperation"]
OF_MEMORY = ["InvalidOperation", "OutOfMemory"]
INCLUDE_OF = ["BadInclude", "WriteFailure"]


def fails(kinds, **beside):
    return {"fails": kinds, **beside}


def by_filter(kinds):
    return {"filters": {"p": fails(kinds)}}


def by_test(kinds):
    return {"tests": {"p": fails(kinds)}}


def by_function(kinds):
    return {"functions": {"p": fails(kinds)}}


def by_method(kinds):
    return {"method": fails(kinds)}


def by_formatter(kinds):
    return {"formatter": fails(kinds)}


def by_join(kinds):
    return {"join": fails(kinds)}


# where each is heard
F, T, C, M, P, J = "{{ 1|p }}", "{{ 1 is p }}", "{{ p() }}", "{{ 1.p() }}", "{{ 1 }}", '{% include "i" %}'
I = ("i", "")


def inc(inner, *more, outer='a{% include "b" %}c'):
    """A page that includes another."""
    return [("a", outer), ("b", inner), *more]


group("# kinds that callables state are their own: those that the machine has for itself are told as they are stated", [
    *[t("a" + F + "b", **by_filter(k)) for k in (INCLUDE_OF, [MEMORY, MEMORY], [CODE, MEMORY])],
    *[t("a" + T + "b", **by_test(k)) for k in (CODE, MEMORY_OF, MEMORY)],
    *[t("a" + C + "b", **by_function(k)) for k in (SINK, OF_MEMORY, [MEMORY, SINK])],
    *[t("a" + M + "b", **by_method(k)) for k in (SINK, [CODE, "UndefinedError"], MEMORY)],
    *[t("a" + P + "b", **by_formatter(k)) for k in (SINK, SINK_OF, MEMORY_OF)],
    t("a" + J, I, **by_join(SINK)), t('a{% extends "i" %}', I, **by_join(OF_MEMORY)), t('a{% import "i" as i %}', I, **by_join(INCLUDE_OF)), t('a{% from "i" import v %}', I, **by_join(CODE)), t('a{% from "i" import v %}', I, **by_join(MEMORY)),
    {"expression": "1|p", **by_filter(SINK)}, {"expression": "p()", **by_function(MEMORY_OF)}, {"expression": "1 is p", **by_test(MEMORY)},
    {"source": "a" + F, **by_filter(SINK_OF)}, t("a" + C, call="render", **by_function(SINK)), t("a" + P, call="render_captured", **by_formatter(CODE)), t("a" + F, call="render", **by_filter(MEMORY)),
])

group("# what includes wrap: each kind that is stated within, but for OutOfMemory alone, which each run around tells as it is", [
    *[t(*inc("b" + F), **by_filter(k)) for k in (SINK, CODE, SINK_OF, MEMORY_OF, OF_MEMORY, INCLUDE_OF, ["OutOfFuel", MEMORY])],
    *[t(*inc('b{% include "d" %}', ("d", "d" + x)), **bring(k)) for x, bring, k in [
        (T, by_test, CODE), (C, by_function, MEMORY_OF), (M, by_method, SINK), (P, by_formatter, SINK), (F, by_filter, MEMORY), (C, by_function, ["BadInclude", MEMORY]),
    ]],
    *[t(*inc("b" + x), **bring(MEMORY)) for x, bring in ((T, by_test), (C, by_function), (M, by_method), (P, by_formatter))],
    t(*inc("b" + P), **by_formatter([MEMORY, MEMORY])), t(*inc("{% set v = 1 %}" + F, outer='a{% import "b" as q %}'), **by_filter(SINK)), t(*inc("{% set v = 1|p %}", outer='a{% from "b" import v %}'), **by_filter([CODE, CODE])), t(*inc("{% set v = 1|p %}", outer='a{% from "b" import v %}'), **by_filter(MEMORY)),
    # a macro that was imported is called in no include
    t(*inc(m("", F), outer='{% from "b" import m %}a{{ m() }}'), **by_filter(SINK)),
    t(*inc(m("", "m" + C) + "b{{ m() }}"), **by_function(SINK)),
])


def up(inner, *more, outer="y{{ super() }}"):
    """A page whose block has the text, under another one's."""
    return ['{% extends "l" %}' + b(outer), ("l", "l" + b("x" + inner)), *more]


group("# what `super()` wraps, printed or by its value, and within includes; blocks wrap nothing", [
    *[t(*up(F), **by_filter(k)) for k in (SINK, OF_MEMORY, MEMORY, ["EvalBlock", CODE])],
    *[t(*up(x, outer="y{{ super() ~ 1 }}"), **bring(k)) for x, bring, k in ((T, by_test, CODE), (C, by_function, MEMORY_OF), (M, by_method, MEMORY))],
    t(*up(P, outer="y{{ super() }}"), **by_formatter(SINK)), t(*up('{% include "d" %}', ("d", "d" + P)), **by_formatter(CODE)), t(*up('{% include "d" %}', ("d", "d" + F)), **by_filter(MEMORY)),
    t('{% extends "k" %}' + b("y{{ super() }}"), ("k", '{% extends "l" %}' + b("z{{ super() }}")), ("l", b("x" + F)), **by_filter(SINK_OF)),
    t(*inc('{% extends "l" %}' + b("y{{ super() }}"), ("l", "l" + b("x" + C))), **by_function(SINK)),
    t("a" + b("b" + F), **by_filter(SINK)), t(hid(b="b" + C) + "a{{ self.b() }}", **by_function(CODE)), t(hid(b="b" + C) + "a{{ self.b() ~ 1 }}", **by_function(MEMORY_OF)), t('{% extends "l" %}' + b("y" + M), ("l", "l" + b("x")), **by_method(SINK)),
])

group("# macros, `call` blocks, rounds that are called again, captures, loops and conditions tell a stated kind as it is", [
    t(m("", "b" + F) + "a{{ m() }}", **by_filter(SINK)), t(m("", "b" + C) + "a{{ [m()] }}", **by_function(OF_MEMORY)), t(m("a=1|p", "b") + "a{{ m() }}", **by_filter(MEMORY_OF)), t(m("", 'b{% include "i" %}') + "a{{ m() }}", ("i", "i" + F), **by_filter(SINK)), t(m("", "b" + J) + "a{{ m() }}", I, **by_join(SINK)),
    t(m("", "[{{ caller() }}]") + "a" + call("m()", "c" + F), **by_filter(CODE)), t(m("", "[{{ caller() }}" + M + "]") + "a" + call("m()", "c"), **by_method(SINK)),
    *[t("a{% for i in [[0]] recursive %}{{ i }}" + x + "{% if i %}" + again + "{% endif %}{% endfor %}", **bring(k)) for x, again, bring, k in [
        ("{% if not i %}{{ i|p }}{% endif %}", "{{ loop(i) }}", by_filter, SINK), ("{% if not i %}{{ i|p }}{% endif %}", "{% set s = loop(i) %}", by_filter, MEMORY_OF), ('{% if not i %}{% include "gone" %}{% endif %}', "{{ loop(i) }}", by_join, CODE), ("{% if not i %}{{ i|p }}{% endif %}", "{{ loop(i) }}", by_filter, MEMORY),
    ]],
    t("a{% set s %}b" + F + "{% endset %}", **by_filter(INCLUDE_OF)), t("a{% filter p %}b{% endfilter %}", **by_filter(SINK)), t('a{% set s %}b{% include "i" %}{% endset %}', ("i", "i" + F), **by_filter(CODE)),
    t("a{% for i in 1|p %}{% endfor %}", **by_filter(SINK)), t("a{% for i in [1, 2] if i is p %}{% endfor %}", **by_test(CODE)), t('a{% autoescape "html" %}{% with v = 1|p %}{% endwith %}{% endautoescape %}', **by_filter(OF_MEMORY)),
])

group("# `ignore missing`, and names in turn: a fault of what stands, or of a join, is no missing template, whatever its kinds", [
    t('a{% include "b" ignore missing %}c', ("b", "b" + F), **by_filter(SINK)), t('a{% include "b" ignore missing %}c', ("b", "b" + C), **by_function(["TemplateNotFound", SINK])), t('a{% include ["gone", "b", "d"] ignore missing %}c', ("b", "b" + F), ("d", "d"), **by_filter([CODE, "TemplateNotFound"])), t('a{% include "b" ignore missing %}c', ("b", "b" + F), **by_filter(MEMORY)),
    *[t('a{% include ["gone", "i"] ignore missing %}c', I, **by_join(k)) for k in (SINK, ["TemplateNotFound", MEMORY], MEMORY)],
])

group("# under a fuel: the machine's OutOfFuel stands where the steps before the callable are cut, and a stated kind behind them", [
    *ends_at(t(*inc("b" + F), **by_filter(SINK)), t(*inc("b" + C), **by_function(MEMORY)), t(*up(P), **by_formatter(CODE))), t(*inc("b" + F), fuel=100, **by_filter(["OutOfFuel", SINK])), t(*inc('b{% include "d" %}', ("d", "d" + T)), fuel=100, **by_test([SINK, "OutOfFuel"])),
])

group("# a sink that fails is told as it is by each run around, and a stated WriteFailure is not: by the room that is left", [
    *[t("ab" + F + "c", room=n, **by_filter(SINK)) for n in (2, 1)],
    *[t(*inc("bcd" + x), room=n, **bring(k)) for x, bring, k, n in ((F, by_filter, SINK, 4), (F, by_filter, SINK, 3), (P, by_formatter, SINK, 4), (P, by_formatter, SINK, 1), (C, by_function, MEMORY, 2))],
    *[t(*up(P), room=n, **by_formatter(SINK)) for n in (3, 2)], *[t(*up("{% set s %}bcd" + F + "{% endset %}", outer="{% set s %}y{{ super() }}{% endset %}"), room=n, **by_filter(SINK_OF)) for n in (1, 0)],
    *[t(*inc('b{% include "d" %}', ("d", "d{{ 1 }}")), room=n, formatter={"gives": "uv"}) for n in (3, 4)],
    t(*inc("b" + F), room=None, **by_filter(SINK)), t(m("", "bcd" + F) + "{{ m() }}", room=0, **by_filter(SINK)),
])

STATED = {"p": fails(SINK), "q": fails(MEMORY), "r": fails(MEMORY_OF)}
MORE = hid(b="b" + F, c='c{% include "i" %}', d="d") + m("", "m" + T) + m("", 'm{% include "i" %}', "n")
group("# calls on a state tell a stated kind as it is, wrapped by the includes and `super()` within them, and what is called behind them is there", [
    {"calls": [af("p"), af("q"), af("r"), pt("p"), pt("q"), pt("r"), cm("p"), cm("q"), cm("r"), af("p")], "filters": STATED, "tests": STATED, "functions": STATED},
    *[new(t(hid(b="b" + P, c="c"), formatter=fails(k), **BARE), fmt(1), rb("b"), fmt("x"), rb("c"), TELL) for k in (SINK, OF_MEMORY, MEMORY)],
    *[new(t(hid(b="b" + J, c="c"), I, join=fails(k), **BARE), {"get_template": "i"}, rb("b"), rb("c"), {"get_template": "gone"}) for k in (SINK, MEMORY_OF, MEMORY)],
    *[after(t(MORE, ("i", "i" + F), filters={"p": fails(k)}, tests={"p": fails(k)}, **BARE), rb("b"), rb("c"), cm("m"), cm("n"), rb("d"), rb("c"), rb("d")) for k in (SINK, CODE, OF_MEMORY, MEMORY)],
    after(t('{% extends "l" %}' + b("y{{ super() }}") + b("c", "c"), ("l", hid(b="x" + F, c="")), filters={"p": fails(SINK)}, **BARE), rb("b"), rb("c"), rb("b"), TELL), after(t('{% extends "l" %}' + b("y{{ super() }}") + b("c", "c"), ("l", hid(b="x" + F, c="")), filters={"p": fails(MEMORY)}, **BARE), rb("b"), rb("c"), rb("b"), TELL),
    # what was set before the fault stays
    *[after(t(hid(b='{% do put("n", 5) %}' + F, c='{{ get("n") }}'), filters={"p": fails(k)}, functions={"put": "set", "get": "get"}, **BARE), rb("b"), gt("n"), rb("c"), st("n", 6), rb("c")) for k in (SINK, MEMORY_OF)],
    *[after(t(NS + m("", "{% set ns.n = ns.n + 1 %}" + F) + hid(b='{% set ns.n = ns.n + 1 %}{% include "i" %}', c="{{ ns.n }}"), ("i", "{% set ns.n = ns.n + 1 %}" + F), filters={"p": fails(k)}, **SPARE), rb("b"), rb("c"), cm("m"), rb("c")) for k in (SINK, [CODE, MEMORY])],
    after(t(NS + hid(b="{% for i in [1, 2, 3] %}{% set ns.l_ = loop %}{% if i == 2 %}" + F + "{% endif %}{% endfor %}", c="{{ ns.l_ }}{{ ns.l_.previtem }}"), filters={"p": fails(SINK)}, **SPARE), rb("b"), rb("c")),
    # fuel: the steps before the fault are consumed, and the rest is left
    *[dict(new(t(hid(b="b" + F, c='c{% include "i" %}', d="d"), ("i", F), filters={"p": fails(k)}, **BARE), rb("b"), TELL, rb("c"), TELL, rb("d"), TELL), fuel=n) for k, n in ((SINK, 20), (["OutOfFuel", CODE], 20), (SINK, 6))],
])

group("# what a callable goes on with: the last one's kinds are told, and what the first ones have set stays", [
    t("a" + F, filters={"p": {"filter": "q"}, "q": {"filter": "r"}, "r": fails(SINK)}), t("a" + F, filters={"p": {"test": "q"}}, tests={"q": {"filter": "r"}}) | {"filters": {"p": {"test": "q"}, "r": fails(MEMORY_OF)}}, t("a{{ p(q, 1) }}", functions={"p": "call", "q": fails(CODE)}), t("a" + M, method={"filter": "q"}, filters={"q": fails(OF_MEMORY)}), t("a{{ 3|p }}", filters={"p": {"down": "q"}, "q": {"down": "r"}, "r": fails(SINK)}), 
    t(m("a", "b" + '{% include "i" %}') + "a" + F, ("i", "i{{ 1|q }}"), filters={"p": {"macro": "m"}, "q": fails(SINK)}), t(hid(b="b{{ 1|q }}") + "a" + T, tests={"p": {"rendered": "b"}}, filters={"q": fails(CODE)}), t(*inc("b" + F), filters={"p": {"filter": "q"}, "q": {"filter": "r"}, "r": fails(SINK_OF)}), t(*inc("b" + F), filters={"p": {"filter": "q"}, "q": fails(MEMORY)}), t(*inc(m("a", "m{{ 1|q }}") + "b" + F), filters={"p": {"macro": "m"}, "q": fails(SINK)}), t(m("a", "m{{ 1|q }}") + '{% include "b" %}', ("b", "b" + F), filters={"p": {"macro": "m"}, "q": fails(MEMORY_OF)}),
    # one that asks for more prints the value itself, and one that fails behind what it sets has set nothing
    t("a" + P + "b", formatter={"filter": "q"}, filters={"q": fails(SINK)}), new(t("", filters={"p": fails(SINK, sets=[["n", 1]]), "q": {"sets": [["n", 2]], "filter": "p"}}, **BARE), af("p"), gt("n"), af("q"), gt("n")),
])


def main():
    lines = open(sys.argv[1], encoding="utf-8").read().split("\n")
    decoder = json.JSONDecoder()
    seen = {l[:decoder.raw_decode(l)[1]] for l in lines if l.startswith("{")}
    headings = {l for l in lines if l.startswith("#")}
    print(written(sys.argv[2] + "/new", GROUPS, seen, headings), "new")


if __name__ == "__main__":
    model.threaded(main)

"""Writes the cases of loops that outlive a fault: held_loop_cases.py STDOUT_OF_BEFORE OUT_DIR

Each group has a heading and cases; answers are the model's. Only words that the table has.
"""
import json
import sys
import model
import macro_cases
import failed_call_cases
from macro_cases import after, cm, m, t, written
from failed_call_cases import BARE, NS, RUIN, SPARE, TELL, b, fuels, hid, lk, new, rb
from cases import GROUPS, af, gt, pt

GROUPS.clear()
macro_cases.EXTRA.clear()

failed_call_cases.FILTERS.update({
    "kept": {"temp": "n"}, "got": {"get": "n"}, "mac_n": {"macro": "n"}, "ren_c": {"rendered": "c"}, 
})
failed_call_cases.TESTS.update({"tc": {"rendered": "c"}})
failed_call_cases.FUNCTIONS.update({"its_": {"lookup": "loop"}})
w = failed_call_cases.w
group = macro_cases.group


def all_of(v):
    """What a loop is, and all that it has."""
    return "{{ " + v + " }}{{ [" + ", ".join(v + "." + n for n in ("index0", "index", "length", "revindex", "revindex0", "first", "last", "depth", "depth0", "previtem", "nextitem")) + "] }}"


def loop(items, body, more="", of="i"):
    return "{% for " + of + " in " + items + more + " %}" + body + "{% endfor %}"


HOLD = "{% set ns.l_ = loop %}"
OUTER = "{% set ns.o_ = loop %}"
LOOK = all_of("ns.l_")


def bad(when):
    return "{% if " + when + " %}" + RUIN + "{% endif %}"


def failed(items, when, *before, look=LOOK, hold=HOLD, more="", of="i"):
    """A block whose loop holds itself and fails, and one that looks into it."""
    return NS + hid(b=loop(items, hold + "".join(before) + bad(when), more, of), c=look)


B, C = rb("b"), rb("c")
WAITED = [
    w(after(t(NS + hid(b='{% for z in [7, 8] %}' + m("", "{{ z }}{{ loop.index }}", "n") + "{% set ns.m = n %}{% if z == 8 %}" + RUIN + "{% endif %}{% endfor %}", c="{{ ns.m() }}"), **SPARE), B, C), "bad"),
    w(after(t(NS + hid(b="{% for i in [1, 2, 3] %}{% set ns.l_ = loop %}{% if i == 2 %}" + RUIN + "{% endif %}{% endfor %}", c="{{ ns.l_ }}{{ ns.l_.index }}{{ ns.l_.previtem }}{{ ns.l_.nextitem }}{{ ns.l_.last }}"), **SPARE), B, C), "bad"),
]

group("# loops whose round fails in a call on a state stay as they were there: what a namespace or a closure holds is looked into in a later call", [
    *WAITED,
    *[w(after(t(failed("[5, 6, 7]", f"i == {i}"), **SPARE), B, C), "bad") for i in (5, 6, 7)],
    w(after(t(failed("[5]", "1"), **SPARE), B, C), "bad"),
    # the item was given that is not stored: unpacking it fails, behind the round that held the loop
    after(t(NS + hid(b=loop("[[1, 2], [3]]", HOLD, of="i, j"), c=LOOK), **SPARE), B, C),
    w(after(t(failed('{"a": 1, "b": 2}', 'i == "b"'), **SPARE), B, C), "bad"),
    w(after(t(failed('"xyz"', 'i == "y"', look="{{ ns.l_.previtem }}{{ ns.l_.nextitem }}{{ ns.l_['index'] }}{{ ns.l_[0] }}{{ ns.l_.gone }}"), **SPARE), B, C), "bad"),
    w(after(t(failed("[1, 2]", "i == 2", "{% set q %}{% autoescape true %}{% with v = 1 %}", bad("i == 2"), "{% endwith %}{% endautoescape %}{% endset %}"), **SPARE), B, C, TELL), "bad"),
    # left by `break` and `continue`, and run to its end, before the fault
    w(after(t(NS + hid(b=loop("[1, 2, 3]", HOLD + "{% if i == 2 %}{% break %}{% endif %}") + RUIN, c=LOOK), **SPARE), B, C), "bad"),
    w(after(t(NS + hid(b=loop("[1, 2]", HOLD) + RUIN, c=LOOK), **SPARE), B, C), "bad"),
    w(after(t(NS + hid(b=loop("[1, 2, 3]", HOLD + "{% if i < 3 %}{% continue %}{% endif %}" + RUIN), c=LOOK), **SPARE), B, C), "bad"),
])

group("# loops that fail in each kind of call on a state are looked into by each kind", [
    w(after(t(NS + m("", loop("[1, 2]", HOLD + bad("i == 2"))) + m("", LOOK, "n"), **SPARE), cm("m"), cm("n"), cm("m"), cm("n")), "bad"),
    w(after(t(NS + m("", loop("[1, 2]", HOLD + bad("i == 2"))) + m("", LOOK, "n"), **SPARE), af("mac"), af("mac_n"), pt("tm"), af("mac_n"), cm("fm"), cm("n")), "bad mac mac_n tm fm"),
    w(after(t(failed("[1, 2]", "i == 2", look="{{ ns.l_ }}"), **SPARE), af("ren"), af("ren_c"), pt("tb"), af("ren_c"), pt("tc"), cm("fb"), af("ren_c")), "bad ren ren_c tb tc fb"),
    w(new(t(b("{% set ns = namespace() %}{% do put(\"n\", ns) %}" + loop("[1, 2]", HOLD + bad("i == 2"))) + b('{% set ns = get("n") %}' + LOOK, "c"), **SPARE), B, C, gt("n"), B, C, gt("n")), "bad put get"),
    # a fault in what looks leaves it too
    w(after(t(failed("[1, 2]", "i == 2", look="{{ ns.l_.index }}" + RUIN) + m("", "{{ ns.l_.gone() }}") + m("", "{{ ns.l_ }}", "n"), **SPARE), B, C, C, cm("m"), cm("n")), "bad"),
    w(after(t(failed("[1, 2]", "i == 2", look="{{ ns.l_() }}") + m("", '{% set l_ = ns.l_ %}{{ l_([1]) }}') + m("", "{{ ns.l_ }}", "n"), **SPARE), B, C, cm("m"), cm("n")), "bad"),
])

group("# `cycle` goes by the item where the round failed, and `changed` by what it was called with before", [
    w(after(t(failed("[4, 5, 6]", "i == 5", look='{{ ns.l_.cycle("a", "b", "c") }}{{ ns.l_.cycle("a") }}{{ ns.l_.cycle(1, 2) }}'), **SPARE), B, C), "bad"),
    w(after(t(failed("[4, 5]", "i == 5", "{% do loop.changed(i) %}", look="{{ ns.l_.changed(5) }}{{ ns.l_.changed(4) }}{{ ns.l_.changed(4) }}"), **SPARE), B, C, C), "bad"),
    w(after(t(failed("[4, 5]", "i == 5", look="{{ ns.l_.changed(5) }}{{ ns.l_.changed(5) }}{{ ns.l_.changed() }}"), **SPARE), B, C, C), "bad"),
    w(after(t(failed("[4, 5]", "i == 5", "{% do loop.changed() %}", look="{{ ns.l_.changed() }}"), **SPARE), B, C), "bad"),
    # the fault stands among its arguments, or behind it in a later call
    w(after(t(failed("[4, 5]", "0", "{% do loop.changed(i, 1 if i == 4 else (1|bad)) %}", look="{{ ns.l_.changed(5, 1) }}"), **SPARE), B, C), "bad"),
    w(after(t(failed("[4]", "1", "{% do loop.changed(i) %}", look="{{ ns.l_.changed(9) }}" + RUIN) + m("", "{{ ns.l_.changed(9) }}"), **SPARE), B, C, cm("m")), "bad"),
    # two loops, each by its own
    w(after(t(NS + hid(b=loop("[1, 2]", OUTER + "{% do loop.changed(i) %}" + loop("[7, 8]", HOLD + "{% do loop.changed(j) %}" + bad("j == 8 and i == 2"), of="j")), c="{{ ns.o_.changed(2) }}{{ ns.l_.changed(8) }}{{ ns.l_.changed(2) }}{{ ns.o_.changed(2) }}"), **SPARE), B, C), "bad"),
    # the inner one is held by nothing, and neither is a later one: it asks for the first time
    w(after(t(NS + hid(b=loop("[1]", OUTER + "{% do loop.changed(3) %}" + loop("[7]", "{% do loop.changed(3) %}" + RUIN, of="j")), c="{{ ns.o_.changed(3) }}" + loop("[7]", "{{ loop.changed(3) }}{{ loop.changed(3) }}", of="j")), **SPARE), B, C), "bad"),
    w(after(t(NS + hid(b=loop("[1]", "{% do loop.changed(3) %}" + RUIN), c=loop("[1]", HOLD + "{{ loop.changed(3) }}" + RUIN)) + m("", "{{ ns.l_.changed(3) }}"), **SPARE), B, B, C, cm("m"), B, cm("m")), "bad"),
])

group("# a loop that fails is held by a list, a tuple, a map, a namespace, a module, an item of another loop, a closure, or what a callable has set", [
    *[w(after(t(failed("[1, 2]", "i == 2", hold=hold, look=look), **more), B, C), "bad") for hold, look, more in [
        ("{% set ns.l_ = [0, loop] %}", all_of("ns.l_[1]"), SPARE), ("{% set ns.l_ = (loop,) %}", "{{ ns.l_ }}{{ ns.l_[0].index }}", SPARE), ('{% set ns.l_ = {"a": {"b": [loop]}} %}', "{{ ns.l_ }}{{ ns.l_.a.b[0].index }}", SPARE), ("{% set ns.l_ = namespace(a=loop) %}", "{{ ns }}{{ ns.l_.a.index }}", SPARE), ("{% set ns.l_ = dict(a=loop) %}", "{{ ns.l_.a }}{{ ns.l_.a.index }}", {"remove_globals": ["range"]}),
    ]],
    w(after(t(NS + hid(b=loop("[1, 2]", '{% import "i" as q %}{% set ns.q = q %}' + bad("i == 2")), c="{{ ns.q }}{{ ns.q.v.index }}"), ("i", "{% set v = loop %}I"), **SPARE), B, C), "bad"),
    w(after(t(NS + hid(b=loop("[1, 2]", '{% from "i" import v %}{% set ns.q = [v] %}' + bad("i == 2")), c="{{ ns.q }}{{ ns.q[0].index }}"), ("i", "{% set v = loop %}I"), **SPARE), B, C), "bad"),
    w(after(t(NS + hid(b=loop("[1, 2]", loop("[loop, 5]", HOLD + bad("j == 5 and i == 2"), of="j")), c="{{ ns.l_.index }}{{ ns.l_.previtem.index }}{{ ns.l_.previtem }}"), **SPARE), B, C), "bad"),
    # closures: of the round's frame, of one around a `with`, of what a `call` block hands on
    w(after(t(NS + hid(b=loop("[7, 8]", m("", "{{ z }}" + all_of("loop"), "n") + "{% set ns.m = n %}{% set z = i %}" + bad("i == 8")), c="{{ ns.m() }}"), **SPARE), B, C), "bad"),
    w(after(t(NS + hid(b=loop("[7, 8]", "{% with v = [loop] %}" + m("", "{{ v[0].index }}{{ v }}", "n") + "{% set ns.m = n %}{% endwith %}" + bad("i == 8")), c="{{ ns.m() }}"), **SPARE), B, C), "bad"),
    w(after(t(NS + m("", "{% set ns.m = caller %}", "p") + hid(b=loop("[7, 8]", "{% call p() %}{{ loop.index }}{{ i }}{% endcall %}" + bad("i == 8")), c="{{ ns.m() }}"), **SPARE), B, C), "bad"),
    w(after(t(NS + hid(b=loop("[7, 8]", m("", "{{ loop.changed(i) }}{{ loop.cycle(1, 2) }}", "n") + "{% set ns.m = n %}{% do n() %}" + bad("i == 8")), c="{{ ns.m() }}"), **SPARE), B, C), "bad"),
    # temps, set by a filter and by a function, with and without what else stands in them
    w(after(t(hid(b=loop("[1, 2]", "{% set x = loop|kept %}" + bad("i == 2")), c="{% set l_ = 1|got %}" + all_of("l_")), **BARE), B, gt("n"), C, af("got"), B, gt("n"), C), "bad kept got"),
    w(after(t(hid(b=loop("[1, 2]", '{% do put("n", [loop]) %}' + bad("i == 2")), c='{{ get("n") }}{{ get("n")[0].index }}'), **BARE), B, C, B, C), "bad put get"),
    w(after(t(hid(b=loop("[1, 2]", '{% do put("n", its_()) %}{% do loop.changed(i) %}' + bad("i == 2")), c='{{ get("n").changed(2) }}{{ get("n").cycle(3, 4) }}'), **BARE), B, C), "bad put get its_"),
    w(after(t(hid(b=loop("[1, 2]", m("", "{{ loop.index }}", "n") + '{% do put("n", n) %}' + bad("i == 2")), c='{% set f = get("n") %}{{ f() }}'), **BARE), B, C), "bad put get"),
])

group("# loops within loops that fail: each stays where it was", [
    w(after(t(NS + hid(b=loop("[1, 2]", OUTER + loop("[7, 8, 9]", HOLD + bad("i == 2 and j == 8"), of="j")), c=LOOK + all_of("ns.o_") + "{{ ns.o_ < ns.l_ }}{{ ns.o_ == ns.l_ }}"), **SPARE), B, C), "bad"),
    w(after(t(NS + hid(b=loop("[1, 2]", OUTER + loop("[7, 8, 9]", HOLD, of="j") + bad("i == 2")), c="{{ ns.l_ }}{{ ns.o_ }}"), **SPARE), B, C), "bad"),
    # the outer one, which only the inner one's round put there
    w(after(t(NS + hid(b=loop("[1, 2]", "{% set o_ = loop %}" + loop("[7, 8]", "{% set ns.o_ = o_ %}" + bad("i == 2 and j == 8"), of="j")), c="{{ ns.o_ }}{{ ns.o_.nextitem }}{{ ns.o_.previtem }}"), **SPARE), B, C), "bad"),
    # three of them, the one in the middle held by a closure
    w(after(t(NS + hid(b=loop("[1]", OUTER + loop("[2, 3]", m("", "{{ loop }}{{ j }}", "n") + "{% set ns.m = n %}" + loop("[4, 5]", HOLD + bad("j == 3 and k == 5"), of="k"), of="j")), c="{{ ns.o_ }}{{ ns.m() }}{{ ns.l_ }}"), **SPARE), B, C), "bad"),
    # numbers go on behind those that nothing holds, and those of conditions: a later loop is another one
    w(after(t(hid(b=loop("[1]", loop("[2]", RUIN, of="j")), c=loop("[3]", "{% set x = loop|kept %}")), **BARE), B, C, gt("n"), B, C, gt("n")), "bad kept"),
    w(after(t(hid(b=loop("[1, 2]", "", " if i == 1 or (i|bad)"), c=loop("[3]", "{% set x = loop|kept %}", " if i")), **BARE), B, C, gt("n"), B, gt("n")), "bad kept"),
    w(after(t(hid(b=loop("5", ""), c=loop("[3]", "{% set x = loop|kept %}")), **BARE), B, C, gt("n"), B, C, gt("n")), "kept"),
])

group("# a loop that failed in two calls is two loops, and each stays as it was", [
    w(after(t(NS + hid(b="{% set ns.n = ns.n + 1 %}" + loop("[1, 2, 3]", "{% if ns.n == 1 %}{% set ns.a = loop %}{% else %}{% set ns.o_ = loop %}{% endif %}{% do loop.changed(i) %}" + bad("i > ns.n")), c="{{ ns.a }}{{ ns.o_ }}{{ ns.a.previtem }}{{ ns.o_.previtem }}{{ ns.a.changed(2) }}{{ ns.o_.changed(2) }}{{ ns.a < ns.o_ }}"), **SPARE), B, B, C), "bad"),
    w(after(t(failed("[1, 2, 3]", "i > ns.k", "{% set ns.k = 2 if i == 2 else 1 %}"), **SPARE), B, C, B, C), "bad"),
    w(after(t(NS + hid(b=loop("[1, 2]", "{% set ns.l_ = [loop, ns.l_] %}" + bad("i == 2")), c="{{ ns.l_ }}{{ ns.l_[0] > ns.l_[1][1][0] }}"), **SPARE), B, B, C, B, C), "bad"),
    w(after(t(NS + hid(b=loop("[1, 2]", HOLD + bad("i == 2 and ns.k == 0")), c="{% set ns.k = 1 - ns.k %}{{ ns.l_ }}"), **SPARE), B, C, B, C, B, C), "bad"),
])

GONE = failed_call_cases.GONE
RECUR = "{% set ns.l_ = [loop, ns.l_] %}"
group("# rounds that are called again and fail: the loops of all of them stay, printed or called by a name", [
    # within: each round holds its loop
    after(t(NS + hid(b=loop("[3]", RECUR + GONE + "{% if i == 3 %}{{ loop([6, 0]) }}{% endif %}", " recursive"), c="{{ ns.l_ }}" + all_of("ns.l_[0]")), **SPARE), B, C),
    after(t(NS + hid(b=loop("[3]", RECUR + GONE + "{% if i == 3 %}{% set s = loop([6, 0]) %}{% endif %}", " recursive"), c="{{ ns.l_ }}" + all_of("ns.l_[0]")), **SPARE), B, C),
    after(t(NS + hid(b=loop("[[[0]]]", "{% set ns.l_ = [loop, ns.l_] %}{% if i %}{{ loop(i) }}{% else %}{{ gone.a }}{% endif %}", " recursive"), c="{{ ns.l_[0].depth }}{{ ns.l_[1][0].depth }}{{ ns.l_[1][1][0].depth }}{{ ns.l_ }}"), **SPARE), B, C),
    # until no level is left
    after(t(NS + hid(b=loop("[1]", "{% set ns.n = ns.n + 1 %}" + HOLD + "{{ loop([1]) }}", " recursive"), c="{{ ns.n }}{{ ns.l_.depth }}{{ ns.l_ }}"), **SPARE), B, C) | {"limit": 9},
    after(t(NS + hid(b=loop("[1]", "{% set ns.n = ns.n + 1 %}" + HOLD + "{% set s = loop([1]) %}", " recursive"), c="{{ ns.n }}{{ ns.l_.depth }}{{ ns.l_ }}"), **SPARE), B, C) | {"limit": 9},
    # a loop that ended is called in a later call, its rounds fail, and it is called once more
    after(t(failed_call_cases.rounds("{% if i != 3 %}{% set ns.a = loop %}{% endif %}{{ i }}" + GONE, b="{{ l_([6, 0, 7]) }}", c=all_of("ns.a") + "{{ l_ }}"), **SPARE), B, C, B, C),
    after(t(failed_call_cases.rounds("{% if i != 3 %}{% set ns.a = loop %}{% endif %}{{ i }}" + GONE, b="{{ l_([6, 0, 7]) }}", c="{% set a = ns.a %}{{ a([4, 5]) }}{{ ns.a }}{{ a }}"), **SPARE), B, C),
    after(t(failed_call_cases.rounds("{% do loop.changed(i) %}{% if i != 3 %}{% set ns.a = loop %}{% endif %}" + GONE, b="{{ l_([6, 0]) }}", c="{{ ns.a.changed(0) }}{{ l_.changed(3) }}{{ ns.a.changed(3) }}"), **SPARE), B, C),
    # called from a macro, and of an include's template
    after(t(failed_call_cases.rounds("{% if i != 3 %}{% set ns.a = loop %}{% endif %}{{ i }}" + GONE, m("", loop("[1, 2]", OUTER + "{% set s = l_([6, 1 - k]) %}", of="k")), c="{{ ns.a }}{{ ns.o_ }}{{ ns.o_.depth }}{{ ns.a.depth }}"), **SPARE), cm("m"), C),
    after(t(NS + hid(b='{% include "i" %}', c="{% set l_ = ns.l_ %}{{ ns.l_ }}{{ l_([5]) }}"), ("i", loop("[3, 0]", HOLD + "<{{ i }}>" + GONE, " recursive")), **SPARE), B, C),
    # a loop that is not recursive and fails is not called behind it either
    w(after(t(failed("[1, 2]", "i == 2", look="x{% set l_ = ns.l_ %}{{ l_([1]) }}") + m("", "{{ ns.l_ }}"), **SPARE), B, C, cm("m")), "bad"),
])

group("# loops that fail in macros, `call` blocks, includes, imports, blocks, `super()` and layouts stay where they are held", [
    w(after(t(NS + m("a", loop("a", OUTER + "{{ n(loop.index) }}" + bad("i == 9")), "p") + m("a", loop("[4, 5]", HOLD + bad("i == 5 and a == 2")), "n") + hid(b="{{ p([1, 2]) }}", c="{{ ns.l_ }}{{ ns.o_ }}{{ ns.l_.depth }}"), **SPARE), B, C, cm("n", 1), C), "bad"),
    after(t(NS + m("a", loop("[a]", RECUR + "{{ gone.a if i == 0 else m(i - 1) }}")) + hid(c="{{ ns.l_ }}{{ ns.l_[1][0].length }}"), **SPARE), cm("m", 2), C),
    w(after(t(NS + m("", loop("[1, 2]", OUTER + "{{ caller(i) }}"), "p") + hid(b=loop("[0]", "{% call(v) p() %}" + loop("[7, 8]", HOLD + bad("v == 2 and j == 8"), of="j") + "{% endcall %}"), c="{{ ns.l_ }}{{ ns.o_ }}"), **SPARE), B, C), "bad"),
    w(after(t(NS + hid(b=loop("[1, 2]", OUTER + '{% include "i" %}'), c="{{ ns.l_ }}{{ ns.o_ }}{{ ns.l_.changed(8) }}{{ ns.o_.changed(8) }}"), ("i", loop("[7, 8]", HOLD + "{% do loop.changed(j) %}" + bad("i == 2 and j == 8"), of="j")), **SPARE), B, C), "bad"),
    w(after(t(NS + hid(b='{% import "i" as q %}', c="{{ ns.l_ }}{{ ns.o_ }}"), ("i", loop("[1, 2]", OUTER + '{% from "j" import v %}')), ("j", loop("[7, 8]", HOLD + bad("i == 2 and j == 8"), of="j")), **SPARE), B, C), "bad"),
    w(after(t(NS + hid(b=loop("[1, 2]", OUTER + b(loop("[7, 8]", HOLD + bad("i == 2 and j == 8"), of="j"), "k")), c="{{ ns.l_ }}{{ ns.o_ }}"), **SPARE), B, C, rb("k"), C), "bad"),
    w(after(t(NS + '{% extends "p" %}' + b(loop("[1, 2]", OUTER + "{{ super() }}")) + b("{{ ns.l_ }}{{ ns.o_ }}", "c"), ("p", hid(b=loop("[7, 8]", HOLD + bad("i == 2 and j == 8"), of="j"), c="")), **SPARE), B, C, af("ren"), C), "bad ren"),
    w(after(t(NS + '{% extends "p" %}' + b(loop("[1, 2]", OUTER + "{% set s %}{{ super() ~ 1 }}{% endset %}")) + b("{{ ns.l_ }}{{ ns.o_ }}{{ ns.l_.index }}", "c"), ("p", hid(b=loop("[7, 8]", HOLD + "{{ self.k() }}", of="j"), c="", k=bad("i == 2 and j == 8"))), **SPARE), B, C), "bad"),
    w(after(t(NS + hid(b='{% extends "p" %}' + loop("[1, 2]", OUTER), c="{{ ns.l_ }}{{ ns.o_ }}"), ("p", loop("[7, 8]", HOLD + bad("j == 8"), of="j")), **SPARE), B, C), "bad"),
    w(after(t(NS + hid(b=loop("[1, 2]", OUTER + "{{ i|ren_c }}{% set q = (i is tm) %}"), c=loop("[7, 8]", HOLD, of="j")) + m("a", loop("[4, 5]", "{% set ns.a = loop %}" + bad("a == 2 and k == 5"), of="k")) + m("", "{{ ns.o_ }}{{ ns.l_ }}{{ ns.a }}", "n"), **SPARE), B, cm("n")), "bad ren_c tm"),
])

group("# loops with a condition or an `else` that fail", [
    w(after(t(failed("[1, 2, 3, 4]", "i == 4", more=" if i % 2 == 0"), **SPARE), B, C), "bad"),
    w(after(t(NS + hid(b=loop("[1, 2]", OUTER + loop("[3, 4]", HOLD, " if j == 3 or i == 1 or (j|bad)", of="j")), c="{{ ns.o_ }}{{ ns.l_ }}"), **SPARE), B, C), "bad"),
    w(after(t(NS + hid(b=loop("[1, 2]", OUTER + "{% for j in [] %}{% else %}" + bad("i == 2") + "{% endfor %}"), c="{{ ns.o_ }}"), **SPARE), B, C), "bad"),
    after(t(NS + hid(b=loop("[[1], [2], 3]", HOLD + loop("i", "{% set ns.a = loop %}", of="j")), c="{{ ns.l_ }}{{ ns.a }}{{ ns.a.length }}"), **SPARE), B, C),
])

group("# where nothing fails loops are held too, and their rounds where these end well", [
    after(t(NS + hid(b=loop("[1, 2, 3]", HOLD + "{% do loop.changed(i) %}"), c=LOOK + "{{ ns.l_.changed(3) }}{{ ns.l_.cycle(1, 2) }}"), **SPARE), B, C, B, C),
    after(t(failed_call_cases.rounds("{% if i != 3 %}{% set ns.a = loop %}{% do loop.changed(i) %}{% endif %}{{ i }}" + GONE, b="{{ l_([6, 5]) }}", c="{{ ns.a }}{{ ns.a.previtem }}{{ ns.a.changed(5) }}{{ l_ }}"), **SPARE), B, C, B, C),
    after(t(NS + hid(b=loop("[3, 4]", RECUR + "{% if i == 4 %}{{ loop([6, 5]) }}{% endif %}{{ i }}", " recursive"), c="{{ ns.l_ }}"), **SPARE), B, C),
    after(t(NS + hid(b=loop("[3, 4]", RECUR + "{% if i == 6 %}{% break %}{% endif %}{% if i == 4 %}{% set s = loop([6, 5]) %}{{ s }}{% endif %}{{ i }}", " recursive"), c="{{ ns.l_ }}" + all_of("ns.l_[0]")), **SPARE), B, C),
    t(NS + loop("[3, 4]", "{% do loop.changed(i) %}{% if i == 6 %}" + HOLD + "{% endif %}{% if i == 4 %}{{ loop([6, 5]) }}{% endif %}{{ i }}", " recursive") + LOOK + "{{ ns.l_.changed(5) }}", **SPARE),
    w(after(t(loop("[1, 2]", '{% do put("n", loop) %}{% do loop.changed(i) %}') + hid(b='{{ get("n").changed(2) }}' + RUIN, c='{{ get("n") }}{{ get("n").changed(2) }}'), **BARE), B, C, gt("n")), "bad put get"),
])

group("# numbers that no loop has are looked into by nothing behind a fault, and one that a loop has then is that loop", [
    w(after(t(failed("[1, 2]", "i == 2", look="{{ q == ns.l_ }}{{ q.index }}{{ q }}"), **SPARE) | {"held": {"q": {"loop": [1, 0]}}}, C, B, C), "bad"),
    w(after(t(failed("[1, 2]", "i == 2", look="{{ q == ns.l_ }}{{ q > ns.l_ }}{{ q.index }}"), **SPARE) | {"held": {"q": {"loop": [1, 1]}}}, B, C, B, C), "bad"),
    w(after(t(failed("[1, 2]", "i == 2", look="{{ q == ns.l_ }}{{ q.changed(1) }}"), **SPARE) | {"held": {"q": {"loop": [9, 0]}}}, B, C), "bad"),
])

group("# under a fuel the steps before the fault are consumed, and what is looked at behind it costs what it costs", [
    w(after(t(failed("[1, 2]", "i == 2", look="{{ ns.l_.index }}"), **SPARE), B, TELL, C, TELL), "bad") | {"fuel": 100},
    *fuels(w(after(t(failed("[1, 2]", "i == 2", look="{{ ns.l_.index }}"), **SPARE), B, TELL, C, TELL), "bad"), (27, 26, 23, 22)),
    # a cut, behind which nothing of the round is open
    *fuels(w(after(t(NS + hid(b=loop("[1, 2, 3]", HOLD + "{% set v = i %}{{ i }}")), **SPARE), B, lk("i"), lk("v"), lk("loop"), TELL), ""), (20,)),
])


def main():
    lines = open(sys.argv[1], encoding="utf-8").read().split("\n")
    decoder = json.JSONDecoder()
    seen = {l[:decoder.raw_decode(l)[1]] for l in lines if l.startswith("{")}
    headings = {l for l in lines if l.startswith("#")}
    print(written(sys.argv[2] + "/new", GROUPS, seen, headings), "new")


if __name__ == "__main__":
    model.threaded(main)

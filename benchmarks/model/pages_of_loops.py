"""Random pages with loops that are held and fail, and calls on the state behind them: pages_of_loops.py SEED COUNT

The model's answer is compared with that of the rule of the machine's own definitions (wrong_held_loops.py): a loop is known as long as its frame is
open, and behind that where its value may be held. Each page that is told otherwise is printed.
"""
import json
import random
import sys
import model
import wrong_held_loops

R = random.Random()
NAMES = ["a", "b_", "c_"]
FILTERS = {"bad": {"fails": "MissingArgument"}, "kept": {"temp": "n"}, "ren": {"rendered": "b"}, "mac": {"macro": "m"}, "its": {"lookup": "loop"}}
FUNCTIONS = {"put": "set", "get": "get", "its_": {"lookup": "loop"}, "same_": "first"}


def value(d, loops):
    if d == 0 or R.random() < 0.25:
        return R.choice(["loop", "i", "v", "ns.a", "ns.b_", "n", 'get("n")', "1", '"x"', "its_()", "w_"])
    s = value(d - 1, loops)
    return R.choice(["[%s]", "(%s,)", '{"k": %s}', "namespace(k=%s)", "dict(k=%s)", "same_(%s)", "[1, %s]", "%s"]) % s


def look():
    v = R.choice(["ns.a", "ns.b_", "ns.c_", 'get("n")', "v", "loop", "ns.a[0]", "ns.a.k", "ns.b_.k", "ns.a[1]"])
    return R.choice(["{{ %s }}", "{{ %s.index if %s }}", "{{ %s.previtem if %s }}", "{{ %s.changed(i) if %s }}", "{{ %s.cycle(1, 2) if %s }}", "{% set l_ = %s %}{{ l_([0]) if l_ }}", "{%% set f = %s %%}{{ f() if f }}"]).replace("%%", "%").replace("%s", v)


def body(d, n=None):
    return "".join(stmt(d) for _ in range(n or R.randint(1, 3)))


def stmt(d):
    k = R.random()
    if d == 0 or k < 0.3:
        return R.choice([
            "{%% set ns.%s = %s %%}" % (R.choice(NAMES), value(2, True)), "{%% set v = %s %%}" % value(1, True), '{%% do put("n", %s) %%}' % value(1, True), "{% if loop %}{% do loop.changed(i) %}{% endif %}",
            "{%% if i == %d %%}{{ 1|bad }}{%% endif %%}" % R.randint(1, 3), "{%% if i == %d %%}{{ 1|bad }}{%% endif %%}" % R.randint(1, 3), "{% if loop.last %}{{ 1|bad }}{% endif %}", "{%% set x = %s|kept %%}" % R.choice(["loop", "v", "n"]), look(), "{% break %}" if 0 else "{{ i }}", "{% set ns.a = loop %}", "{% set ns.b_ = [loop, ns.b_] %}",
        ])
    if k < 0.55:
        rec = R.random() < 0.5
        items = R.choice(["[1, 2]", "[1, 2, 3]", "[0, 2]", '"ab"', "[]", "[[1], [2]]", "[loop, 2]", "5", "[3]"])
        inner = body(d - 1)
        if rec and R.random() < 0.7:
            inner += R.choice(["{% if loop.depth < 3 %}{{ loop([2, 3]) }}{% endif %}", "{% if loop.depth < 3 %}{% set s = loop([2, 3]) %}{% endif %}", "{% set w_ = loop %}{% if loop.depth < 3 %}{{ w_([1]) }}{% endif %}"])
        if R.random() < 0.15:
            inner += "{%% if i == 2 %%}{%% %s %%}{%% endif %%}" % R.choice(["break", "continue"])
        return "{%% for i in %s%s%s %%}%s{%% endfor %%}" % (items, R.choice(["", "", "", " if i", " if i != 2 or (i|bad)"]), " recursive" if rec else "", inner)
    if k < 0.67:
        return "{%% macro n() %%}%s{%% endmacro %%}{%% set ns.%s = n %%}" % (R.choice([look(), "{{ loop.index }}", body(d - 1)]), R.choice(NAMES))
    if k < 0.75:
        return '{% include "i" %}'
    if k < 0.8:
        return '{% import "j" as q %}{% set ns.c_ = q.v %}{% set ns.b_ = q %}'
    if k < 0.85:
        return "{%% with v = %s %%}%s{%% endwith %%}" % (value(1, True), body(d - 1))
    if k < 0.9:
        return "{%% set s %%}%s{%% endset %%}" % body(d - 1)
    if k < 0.95:
        return "{%% call p() %%}%s{%% endcall %%}" % body(d - 1)
    return R.choice(["{{ m() }}", "{{ 1|mac }}", "{{ super() }}"])


def page():
    top = "{% set ns = namespace() %}{% set i = 1 %}"
    t = '%s{%% extends "b" %%}{%% macro p() %%}%s{{ caller() }}{%% endmacro %%}{%% macro m() %%}%s{%% endmacro %%}' % (top, R.choice(["", "{% set ns.a = caller %}", "{% for i in [1, 2] %}{{ caller() }}{% endfor %}"]), body(2))
    blocks = {n: body(3) for n in "bcd"}
    t += "".join("{%% block %s %%}%s{%% endblock %%}" % (n, x) for n, x in blocks.items())
    looks = ["{{ ns }}", '{{ get("n") }}', "{{ [ns.a.index, ns.a.depth, ns.a.previtem, ns.b_[0].index, ns.b_[1][0], ns.c_.k, ns.a.k, ns.a[0]] }}", "{{ ns.a.changed(2) }}{{ ns.a.cycle(1, 2, 3) }}", "{% set f = ns.a %}{{ f() }}", "{% set f = ns.b_ %}{{ f() }}", "{% set f = ns.c_ %}{{ f() }}", '{% set f = get("n") %}{{ f() }}', "{% set l_ = ns.a %}{{ l_([5]) }}", '{{ get("n").changed(2) }}']
    eyes = "".join("{%% block e%d %%}%s{%% endblock %%}" % (k, x) for k, x in enumerate(looks))
    base = "{% if 0 %}" + "".join("{%% block %s %%}%s{%% endblock %%}" % (n, body(2)) for n in "bcd") + eyes + "{% endif %}" + (body(1) if R.random() < 0.2 else "")
    calls = []
    for _ in range(R.randint(1, 3)):
        calls += [R.choice([{"render_block": R.choice("bcd")}, {"render_block": "b"}, {"call_macro": "m"}, {"apply_filter": "ren"}]), {"get_temp": "n"}] + [{"render_block": "e%d" % k} for k in range(len(looks))]
    return {"filters": FILTERS, "functions": FUNCTIONS, "templates": [["t", t], ["b", base], ["i", body(2)], ["j", "{% set v = loop %}" + body(1)]], "after": calls, "undefined": "chainable", "limit": R.choice([40, 25, 18])}


def main():
    seed, count = int(sys.argv[1]), int(sys.argv[2])
    R.seed(seed)
    short = ('        self.trace.append(("step", tuple(self.wraps)))\n', '        self.trace.append(("step", tuple(self.wraps)))\n        if len(self.trace) > 3000:\n            raise RuntimeError("long")\n')
    right, own = wrong_held_loops.wrong_of("right", short), wrong_held_loops.wrong_of("own", wrong_held_loops.OWN + short)
    forgetful = wrong_held_loops.wrong_of("forgetful", wrong_held_loops.MUTANTS["a held loop is forgotten at a fault"] + short)
    done = other = seen = refused = 0
    for _ in range(count):
        c = page()
        try:
            a = right(json.loads(json.dumps(c)))
        except Exception as e:
            a = repr(e)
        if " after " not in a:
            refused += 1
            continue
        b = wrong_held_loops.ran(own, c)
        done += 1
        seen += wrong_held_loops.ran(forgetful, c) != a
        if a != b:
            other += 1
            print(json.dumps(c), "\n   right", a[-300:], "\n   own  ", b[-300:], flush=True)
    print(seed, done, "pages,", refused, "refused or failed at once,", seen, "see that held loops outlive faults,", other, "told otherwise")


if __name__ == "__main__":
    model.threaded(main)

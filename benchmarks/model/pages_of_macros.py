"""Random pages with macros, call blocks, rounds, includes, imports and layouts: pages_of_macros.py SEED COUNT [OUT]

Of each page the laws are asked: a look-up that reaches the context is of a name of `context_names`; at the end one frame stands, no capture is open and
nothing counts; a cut's text is a beginning. With OUT the cases and the model's answers are written there, one a line.
"""
import json
import random
import sys
import model
from cases import FILTERS, FUNCTIONS, NEEDS

NAMES = ["x", "y", "q", "i", "j", "m", "n", "caller", "loop", "ns", "s"]
VALUES = ["0", "1", "2", '"<"', "[]", "[1, 2]", "[[], [1]]", "none", '"ab"', '{"a": 1}']


class Law(Exception):
    pass


def page(R):
    def name():
        return R.choice(NAMES)

    def target():
        return R.choice(["x", "y", "q", "i", "j", "m", "n", "s", "caller"])

    def macro_name():
        return R.choice(["m", "n", "w"])

    def args(d):
        out = []
        for _ in range(R.choice([0, 1, 1, 2])):
            k = R.random()
            if k < .7:
                out.append(expr(d - 1))
            elif k < .88:
                out.append(R.choice(["x", "y", "caller"]) + "=" + expr(d - 1))
            elif k < .94:
                out.append("*" + R.choice(["[1]", "[[1, 2]]", "x"]))
            else:
                out.append('**' + R.choice(['{"x": 1}', '{"y": [0]}', "{}"]))
        return ", ".join(out)

    def callee():
        if R.random() < .06:
            return R.choice(["m", "n", "w", "caller", "loop", "l_", "ns.m", "ns.l_", "mod.m", "super", "self.b", "self.d", "x", "c", "loop.cycle", "loop.changed"])
        if R.random() < .25:
            return R.choice(["c", "dict", "namespace", "range"])
        return R.choice(known[-4:] or ["namespace"])

    def expr(d):
        k = R.random()
        if d <= 0 or k < .35:
            return R.choice(VALUES + [name(), name(), name(), "loop.index", "loop.depth", "ns.v", "m.name", "m.caller", "loop"])
        if k < .62:
            return callee() + "(" + args(d) + ")"
        if k < .72:
            return expr(d - 1) + R.choice([" ~ ", " == ", " and ", " or ", " ~ ", " + "]) + expr(d - 1)
        if k < .8:
            return "[" + expr(d - 1) + "]"
        if k < .88:
            return expr(d - 1) + "|" + R.choice(["same", "args", "named", "block"])
        return expr(d - 1) + " if " + expr(d - 1) + R.choice(["", " else " + expr(d - 1)])

    def parameters():
        out, given = [], False
        for p in R.sample(["x", "y", "q", "caller", "i"], R.choice([0, 0, 1, 1, 2, 3])):
            given = given or R.random() < .4
            out.append(p + ("=" + expr(1) if given else ""))
        return ", ".join(out)

    def body(n, d, **at):
        return "".join(stmt(d, **at) for _ in range(n))

    def stmt(d, loop=False, macro=False, top=False):
        k = R.random()
        if d <= 0 or k < .27:
            return R.choice(["a", ",", ""]) + "{{ " + expr(2) + " }}"
        if k < .37:
            return "{% set " + target() + " = " + expr(2) + " %}"
        if k < .42:
            return "{% set " + R.choice(["ns.m = m", "ns.l_ = loop", "ns.v = " + expr(1), "l_ = loop", "l_ = ns.l_"]) + " %}"
        if k < .58:
            name_ = macro_name()
            head = "{% macro " + name_ + "(" + parameters() + ") %}"
            if R.random() < .3:
                known.append("caller")
            made = head + body(R.choice([1, 2]), d - 1, macro=True) + "{% endmacro %}"
            if "caller" in known:
                known.remove("caller")
            known.append(name_)
            if R.random() < .4:
                made += "{{ " + name_ + "(" + args(1) + ") }}"
            return made
        if k < .66:
            p = parameters() if R.random() < .4 else ""
            return "{% call" + ("(" + p + ")" if p else "") + " " + callee() + "(" + args(2) + ") %}" + body(1, d - 1, macro=True) + "{% endcall %}"
        if k < .8:
            rec = R.random() < .7
            inner = body(R.choice([1, 2]), d - 1, loop=True, macro=macro)
            if rec and R.random() < .7:
                inner = inner + "{% if " + R.choice(["loop.depth < 3", "i", "i is right", "not i"]) + " %}" + R.choice(["{{ loop(i) }}", "{{ loop([i]) }}", "{{ loop([0, 1]) }}", "{% set s = loop([0]) %}{{ s }}", "{{ loop([1]) ~ 1 }}"]) + "{% endif %}" + body(R.choice([0, 1]), 1, loop=True, macro=macro)
            if rec and R.random() < .4:
                inner = R.choice(["{% set ns.l_ = loop %}", "{{ w(loop) }}", "{% set l_ = loop %}" + '{% include "v" %}']) + inner
                known.append("ns.l_" if R.random() < .2 else "l_")
            return ("{% set l_ = ns.l_ %}" if R.random() < .3 else "") + "{% for i in " + R.choice(["[1, 2]", "[[]]", "[0]", "x", expr(1)]) + (" if " + expr(1) if R.random() < .15 else "") + (" recursive" if rec else "") + " %}" + inner + R.choice(["", "", "{% else %}e"]) + "{% endfor %}"
        if k < .84:
            return "{% with " + target() + " = " + expr(1) + " %}" + body(1, d - 1, loop=loop, macro=macro) + "{% endwith %}"
        if k < .87:
            return "{% if " + expr(2) + " %}" + body(1, d - 1, loop=loop, macro=macro) + "{% endif %}"
        if k < .89:
            return "{% autoescape " + R.choice(["true", '"json"', "false"]) + " %}" + body(1, d - 1, loop=loop, macro=macro) + "{% endautoescape %}"
        if k < .91:
            return "{% set s %}" + body(1, d - 1, loop=loop, macro=macro) + "{% endset %}{{ s }}"
        if k < .95:
            return R.choice(['{% include "u" %}', '{% include ["gone", "u"] %}', '{% import "u" as mod %}', '{% from "u" import m, x as y %}', '{% from "u" import q, n %}'])
        if k < .97 and not macro and top is not None:
            blocks = [b for b in ("b", "d") if b not in used]
            if blocks:
                used.append(blocks[0])
                return "{% block " + blocks[0] + " %}" + body(1, d - 1) + "{% endblock %}"
        if k < .985:
            return R.choice(['{% extends "p" %}', "{% if 0 %}{% extends \"p\" %}{% endif %}"])
        return R.choice(["{% break %}", "{% continue %}"]) if loop else "{% do " + callee() + "(" + args(1) + ") %}"

    used, known = [], []
    # names that each template stores first, so that only blocks and recursive loops can list them
    first = "".join("{% set " + n + " = " + R.choice(VALUES) + " %}" for n in ("x", "y", "q", "i", "j", "s", "caller") if R.random() < .6) if R.random() < .7 else ""
    t = first + "{% set ns = namespace(v=1) %}{% macro w(l_) %}{{ l_([3]) if l_.depth else 1 }}{% endmacro %}" + body(R.choice([2, 3, 4]), 3, top=True)
    used = []
    u = first + body(R.choice([1, 2, 3]), 2, top=True)
    used = []
    p = first + body(R.choice([1, 2]), 2, top=True)
    return t, u, p


class Watched(dict):
    def __init__(self, pairs, met):
        super().__init__(pairs)
        self.met = met

    def get(self, key, default=None):
        self.met.add(key)
        return super().get(key, default)


def main():
    seed, count, out = int(sys.argv[1]), int(sys.argv[2]), sys.argv[3] if len(sys.argv) > 3 else None
    R = random.Random(seed)
    lines, n, done, tried = [], 0, 0, 0
    while n < count:
        tried += 1
        t, u, p = page(R)
        words = set(__import__("re").findall(r"[A-Za-z_]+", t + u + p))
        c = {"filters": {w: FILTERS[w] for w in ("same", "args", "named", "block") if w in words}, "tests": {"right": "first"} if "right" in words else {}, "functions": {"c": "call"} if "c" in words else {}}
        c = {k: v for k, v in c.items() if v}
        c["templates"] = [[R.choice(["t", "t", "t.html"]), t], ["u", u], ["p", p], ["v", "{% set y = 8 %}{{ l_([0]) }}"]]
        c["context"] = {k: v for k, v in {"x": [0, 1], "y": 5, "q": "c", "caller": 7, "loop": 8, "s": 3, "i": 4, "j": 6}.items() if R.random() < .5}
        if R.random() < .2:
            c["undefined"] = R.choice(["chainable", "semi_strict", "strict"])
        elif R.random() < .6:
            c["undefined"] = "chainable"
        if R.random() < .5:
            c["limit"] = R.choice([8, 14, 20, 26, 40])
        else:
            c["limit"] = 60
        environment = model.Environment(c)
        said, goes_on = environment.take(c)
        if not goes_on:
            continue
        main_ = c["templates"][0][0]
        names = set(model.answer(dict(c, names=True))[1:-1].split(", "))
        met = set()
        context = Watched(model.context_of(c), met)
        body, escape = environment.templates[main_]
        limit_trace = 200000
        run, end = None, None
        try:
            run, end = model.rendered(environment.world(c), body, escape, context, main_, 1)
        except TooLong:
            continue
        if met - names:
            raise Law(("a look-up of no name of the context", met - names, c))
        if end is None and (len(run.frames) != 1 or run.captures or run.outer):
            raise Law(("left", len(run.frames), run.captures, run.outer, c))
        text = "".join(x[1] for x in run.trace if x[0] == "text")
        if end is not None and len(text) < 2 and R.random() < .6:
            continue
        if len(text) > 1500:
            continue
        n += 1
        if R.random() < .3:
            c["fuel"] = R.choice([5, 10, 20, 40, 80, 1000])
        said = model.answer(json.loads(json.dumps(c)))
        if said.startswith("?"):
            n -= 1
            continue
        done += " ! " not in said
        lines.append(json.dumps(c, ensure_ascii=False) + " = " + said)
    if out:
        open(out, "w", encoding="utf-8").write("".join(l + "\n" for l in lines))
    print(len(lines), "cases,", done, "done, of", tried, "pages")


class TooLong(Exception):
    pass


_charge = model.Run.charge


def charge(self):
    _charge(self)
    if len(self.trace) > 20000:
        raise TooLong()


model.Run.charge = charge
if __name__ == "__main__":
    model.threaded(main)

"""Writes the cases of blocks, layouts, imports, formatters and joins: layout_cases.py STDOUT_OF_BEFORE OUT_DIR

Each group has a heading and cases; answers are the model's. Cases that need words which the rows may lack stand apart (EXTRA).
"""
import json
import re
import sys
import model

GROUPS = []
KEYS = ["globals", "remove_globals", "filters", "tests", "functions", "method", "remove_filters", "remove_tests", "brings", "held", "formatter", "join", "templates", "source", "expression", "main",
        "call", "calls", "names", "room", "context", "fuel", "limit", "undefined", "escapes", "owned", "state", "skip", "temps", "again"]
MODES = ["lenient", "chainable", "semi_strict", "strict"]


def group(heading, cases):
    GROUPS.append((heading, cases))


# what stands under a name that a source has
FILTERS = {
    "twice": {"times": 2}, "args": "arguments", "same": "first", "named": "name", "escape": "escape", "mode": "undefined", "block": "block", "nth": {"at": 2000}, "second": {"at": 1}, "safe": "safe", "down": {"down": "down"}, "word": {"keyword": "a"},
    "called": "call", "through": "filter", "asked": "test", "looked": "lookup", "ofx": {"lookup": "x"}, "ofloop": {"lookup": "loop"}, "ofi": {"lookup": "i"}, "got": {"get": "n"}, "kept": {"temp": "n"},
    "five": {"gives": 5}, "tag": {"gives": "<b>"}, "nothing": {"lookup": "not there"}, "broken": {"fails": "InvalidOperation"}, "unmade": {"fails": "MissingArgument"},
    "f1": {"filter": "f2"}, "f2": {"filter": "f3"}, "f3": {"filter": "same"}, "on": {"filter": "on"}, "to": {"filter": "gone"}, "totest": {"test": "right"}, "toargs": {"filter": "args"},
    "count": {"counts": "n", "filter": "got"},
}
TESTS = {
    "true_": "first", "right": "first", "yes": {"gives": 1}, "no": {"gives": ""}, "eq": "call", "noted": "set", "found": {"lookup": "x"}, "wrong": {"fails": "UndefinedError"}, "t1": {"test": "t2"}, "t2": {"test": "right"},
    "tof": {"filter": "args"}, "togone": {"test": "gone"}, "counted": {"counts": "n", "filter": "got"}, "into": "filter", "at": {"at": 1}, "same": "same",
}
FUNCTIONS = {
    "f": "arguments", "g": "first", "h": {"times": 3}, "c": "call", "l": "lookup", "put": "set", "get": "get", "k": {"counts": "n", "filter": "got"}, "e": {"fails": "TooManyArguments"}, "v": {"gives": 7},
    "where": "name", "how": "escape", "a1": {"keyword": "a"},
}
NEEDS = {"f1": ["f2", "f3", "same"], "f2": ["f3", "same"], "f3": ["same"], "k": ["got"], "count": ["got"], "counted": ["got"], "totest": ["right"], "t1": ["t2", "right"], "t2": ["right"], "tof": ["args"], "toargs": ["args"]}
WORD = r"[A-Za-z_][A-Za-z_0-9]*"


def brought(texts):
    """What is brought where such texts stand: what they name as filters, tests and functions, and what these go on to."""
    filters, tests, functions = set(), set(), set()
    for t in texts:
        quoted = set(re.findall(r'"(%s)"' % WORD, t))
        bare = re.sub(r'"[^"]*"', '""', t)
        filters |= set(re.findall(r"(?:\||%% filter)\s*(%s)" % WORD, bare.replace("%", "%%"))) | (quoted if re.search("through|into|up\\(", bare) else set())
        tests |= set(re.findall(r"\bis\s+(?:not\s+)?(%s)" % WORD, bare)) | (quoted if "asked" in bare else set())
        functions |= set(re.findall(r"(?<![|\w.])(?<!is )(?<!is not )(?<!\| )(%s)" % WORD, bare)) | (quoted if re.search(r"looked|\bl\(", bare) else set())
    functions -= {"filter", "set"}
    for w in list(filters | tests | functions):
        for n in NEEDS.get(w, []):
            (tests if n in TESTS and n not in FILTERS else filters).add(n)
    out = {}
    for key, palette, words in (("filters", FILTERS, filters), ("tests", TESTS, tests), ("functions", FUNCTIONS, functions)):
        mine = {n: d for n, d in palette.items() if n in words}
        if mine:
            out[key] = mine
    return out


def with_brought(out, texts):
    for key, mine in brought(texts).items():
        if key not in out:
            out[key] = mine
        if not out[key]:
            del out[key]
    for key in ("filters", "tests", "functions"):
        if key in out and not out[key]:
            del out[key]
    return out


X = {"x": 5, "y": [1, 2], "d": {"a": 1}}


def context_for(source):
    words = set(re.findall(r"[A-Za-z_][A-Za-z_0-9]*", source))
    return {n: v for n, v in X.items() if n in words}


def case(source, name="t", **more):
    out = {"templates": [[name, source]]}
    out.update(more)
    if "context" not in out and more.get("undefined") is None:
        found = context_for(source)
        if found:
            out["context"] = found
    return with_brought(out, [source])


def plain(*sources, **more):
    return [case(s, **more) for s in sources]


def many(templates, **more):
    out = {"templates": [list(t) for t in templates]}
    out.update(more)
    return with_brought(out, [s for t in templates if t and isinstance(t, (list, tuple)) for s in t[1:] if s])


def expr(source, **more):
    out = {"expression": source}
    out.update(more)
    if "context" not in out and more.get("undefined") is None:
        found = context_for(source)
        if found:
            out["context"] = found
    return with_brought(out, [source])


def priced(*sources, **more):
    """Each source under the least fuel that it is done with, which tells its price."""
    return [case(s, fuel=model.price_of(case(s, **more)) + 1, **more) for s in sources]


def refused_at(*sources, **more):
    """Each source that ends with a fault, under the fuel that reaches it and the one below."""
    return [case(s, fuel=model.price_of(case(s, **more)) + d, **more) for s in sources for d in (1, 0)]


def modes(*sources, **more):
    out = []
    for s in sources:
        answers = [model.answer(case(s, undefined=m, **more)) for m in MODES]
        told = MODES if len(set(answers)) > 1 else ["lenient", "strict"]
        if len(set(answers)) == 2 and answers[0] == answers[1] == answers[2]:
            told = ["semi_strict", "strict"]
        elif len(set(answers)) == 2 and answers[0] == answers[1] and answers[2] == answers[3]:
            told = ["chainable", "semi_strict"]
        for m in told:
            out.append(case(s, undefined=m, **more))
    return out


def calls(*made, **more):
    out = dict(more)
    out["calls"] = list(made)
    return out


def af(name, *args):
    return {"apply_filter": name, "args": list(args)} if args else {"apply_filter": name}


def pt(name, *args):
    return {"perform_test": name, "args": list(args)} if args else {"perform_test": name}


def gt(name):
    return {"get_temp": name}


def st(name, value):
    return {"set_temp": name, "value": value}


# ------------------------------------------------------------------------------------------------ filters


def pages(*templates, **more):
    """Templates by their texts: the first is rendered."""
    return many(list(templates), **more)


def with_join(c):
    """The join of a case, told for each of its templates."""
    join = c.get("join")
    names = [t[0] for t in c.get("templates", [])] + ([c["source"][0]] if isinstance(c.get("source"), list) else [])
    if join == "beside":
        c["join"] = {"behind": {n: n[:n.rfind("/") + 1] for n in names if "/" in n}}
    elif join == "under":
        c["join"] = {"behind": {n: n + "/" for n in names}}
    elif join is not None and "behind" in join and isinstance(join["behind"], str):
        c["join"] = {"behind": {n: join["behind"] for n in names}}
    return c


def cut_at(templates, fuels=None, **more):
    """Templates under each fuel, up to the one that they are done with."""
    price = model.price_of(many(templates, **more))
    return [many(templates, fuel=n, **more) for n in (range(1, price + 2) if fuels is None else fuels)]


def done_at(templates, **more):
    """Templates under the least fuel that they are done with."""
    return many(templates, fuel=model.price_of(many(templates, **more)) + 1, **more)


def each(*sets, **more):
    return [many(t, **more) for t in sets]


P = ("p", "A{% block b %}x{% endblock %}C")
group("# blocks: a body is written where its statement stands", [
    case("a{% block b %}x{% endblock %}c"), case("{% block b %}{% endblock %}"), case("a{% block b %}{{ x }}{% endblock b %}c"), case("{% block a %}1{% block b %}2{% endblock %}3{% endblock %}4"), case("{% for i in [1, 2] %}{% block b %}{{ i }}{{ loop.index }}{% endblock %},{% endfor %}"),
    case("{% set x = 1 %}{% block b %}{% set x = 2 %}{{ x }}{% endblock %}{{ x }}"), case("{% with a = 1 %}{% block b %}{{ a }}{% set a = 2 %}{{ a }}{% endblock %}{{ a }}{% endwith %}"), case("{% if x %}{% block b %}y{% endblock %}{% endif %}"), case("{% if not x %}{% block b %}y{% endblock %}{% endif %}n"),
    case("{% set s %}{% block b %}x{% endblock %}{% endset %}[{{ s }}]"), case("{% filter twice %}{% block b %}x{% endblock %}{% endfilter %}"), case("{% autoescape \"html\" %}{% block b %}{{ \"<\" }}{% endblock %}{% endautoescape %}{{ \"<\" }}"), case("{% block b %}{% autoescape \"html\" %}{{ \"<\" }}{% endautoescape %}{{ \"<\" }}{% endblock %}{{ \"<\" }}"),
    case("{% block b %}{% autoescape true %}{{ \"<\" }}{% endautoescape %}{% endblock %}"), case("{% autoescape \"json\" %}{% block b %}{% autoescape false %}{{ \"<\" }}{% autoescape true %}{{ \"<\" }}{% endautoescape %}{% endautoescape %}{% endblock %}{% endautoescape %}"),
    case("{% block b %}{{ 1 // 0 }}{% endblock %}"), case("a{% block b %}b{{ 1 // 0 }}{% endblock %}c"), case("{% block b %}{% for i in [1, 2, 3] %}{% if i == 2 %}{% break %}{% endif %}{{ i }}{% endfor %}{% endblock %}"), case("{% block b %}x{% endblock c %}"), case("{% block b %}{% endblock %}{% block b %}{% endblock %}"), case("{% for i in [1] %}{% block b %}{% break %}{% endblock %}{% endfor %}"), case("{% block %}{% endblock %}"), case("{% block b required %} {# c #} {% endblock %}"), case("{% block b required %}x{% endblock %}"),
])
group("# blocks of layouts: the body of the template that extends runs in the place of the layout's", [
    pages(("c", "{% extends \"p\" %}{% block b %}y{% endblock %}"), P), pages(("c", "{% extends \"p\" %}"), P), pages(("c", "n{% extends \"p\" %}n{% block b %}y{% endblock %}n{% block d %}n{% endblock %}"), P), pages(("c", "a{% extends \"p\" %}b"), ("p", "")), pages(("c", "{{ x }}{% extends \"p\" %}{{ x }}"), ("p", "{{ x }}"), context={"x": 5}),
    pages(("c", "{% set v = 3 %}{% extends \"p\" %}{% set w = 4 %}"), ("p", "{{ v }}{{ w }}")), pages(("c", "{% extends \"p\" %}{% block b %}{{ v }}{% endblock %}"), ("p", "{% set v = 3 %}{% block b %}{% endblock %}")), pages(("c", "{% extends \"p\" %}{% set v = 3 %}{% block b %}{{ v }}{% endblock %}"), ("p", "{% block b %}{% endblock %}")),
    pages(("c", "{% extends \"p\" %}{% block b %}{{ i }}{% endblock %}"), ("p", "{% for i in [1, 2] %}{% block b %}{% endblock %}{% endfor %}{{ i }}")), pages(("c", "{% extends \"p\" %}{% for i in [7] %}{% block b %}{{ i }}{% endblock %}{% endfor %}"), ("p", "{% block b %}{% endblock %}")),
    pages(("c", "{% extends \"p\" %}{% block b %}1{% block d %}2{% endblock %}3{% endblock %}"), ("p", "[{% block b %}{% endblock %}]")), pages(("c", "{% extends \"p\" %}{% block d %}D{% endblock %}"), ("p", "{% block b %}[{% block d %}{% endblock %}]{% endblock %}")), pages(("c", "{% extends \"p\" %}{% block b %}B{% endblock %}"), ("p", "{% block b %}[{% block d %}{% endblock %}]{% endblock %}")),
    pages(("c", "{% extends q %}"), P, context={"q": "p"}), pages(("c", "{% extends \"p\" if x else \"q\" %}"), P, ("q", "Q"), context={"x": True}), pages(("c", "{% extends \"p\" if x else \"q\" %}"), P, ("q", "Q"), context={"x": False}), pages(("c", "{% if x %}{% extends \"p\" %}{% endif %}n"), P, context={"x": True}), pages(("c", "{% if x %}{% extends \"p\" %}{% endif %}y{% block b %}z{% endblock %}"), P, context={"x": False}),
    pages(("c.html", "{% extends \"p\" %}{% block b %}{{ \"<\" }}{% endblock %}"), ("p", "{{ \"<\" }}{% block b %}{% endblock %}")), pages(("c", "{% extends \"p.html\" %}{% block b %}{{ \"<\" }}{% endblock %}"), ("p.html", "{{ \"<\" }}{% block b %}{% endblock %}")), pages(("c", "{% autoescape \"html\" %}{% extends \"p\" %}{% endautoescape %}{{ \"<\" }}"), ("p", "{{ \"<\" }}")),
    pages(("c", "{% extends \"p\" %}{% block b required %} {% endblock %}"), P), pages(("c", "{% extends \"p\" %}"), ("p", "A{% block b required %}{% endblock %}")), pages(("c", "{% extends \"p\" %}{% block b %}y{% endblock %}"), ("p", "A{% block b required %}{% endblock %}")), pages(("c", "{% extends \"p\" %}{% block b %}y{% endblock %}{% block u required %}{% endblock %}"), P),
    case("{% block b required %}{% endblock %}"), case("a{% if 0 %}{% block b required %}{% endblock %}{% endif %}b"),
])
group("# chains of layouts", [
    pages(("c", "{% extends \"m\" %}{% block b %}c{{ super() }}{% endblock %}"), ("m", "{% extends \"p\" %}{% block b %}m{{ super() }}{% endblock %}"), P), pages(("c", "{% extends \"m\" %}"), ("m", "{% extends \"p\" %}{% block b %}m{% endblock %}"), P), pages(("c", "{% extends \"m\" %}{% block b %}c{% endblock %}"), ("m", "{% extends \"p\" %}"), P),
    pages(("c", "{% extends \"m\" %}{% block b %}{{ super() }}{{ super() }}{% endblock %}"), ("m", "{% extends \"p\" %}{% block b %}({{ super() }}{{ super() }}){% endblock %}"), P), pages(("c", "1{% extends \"m\" %}1"), ("m", "2{% extends \"p\" %}2"), ("p", "3")), pages(("c", "{% extends \"m\" %}{% block a %}ca{{ super() }}{% endblock %}"), ("m", "{% extends \"p\" %}{% block b %}mb{{ self.a() }}{% endblock %}"), ("p", "{% block a %}pa{% endblock %}{% block b %}pb{% endblock %}")),
    pages(("c", "{% set v = 1 %}{% extends \"m\" %}"), ("m", "{% set v = v + 1 %}{% extends \"p\" %}"), ("p", "{{ v }}")), pages(("c", "{% extends \"m\" %}"), ("m", "{% extends x %}"), P, context={"x": "p"}), pages(*[(f"t{n}", f"{{% extends \"t{n + 1}\" %}}{{% block b %}}{n}{{{{ super() }}}}{{% endblock %}}") for n in range(9)], ("t9", "[{% block b %}9{% endblock %}]")),
    pages(("c", "{% extends \"m\" %}{% block b %}{{ 1 // 0 }}{% endblock %}"), ("m", "{% extends \"p\" %}{% block b %}m{{ super() }}{% endblock %}"), P), pages(("c", "{% extends \"m\" %}{% block b %}c{{ super() }}{% endblock %}"), ("m", "{% extends \"p\" %}{% block b %}m{{ super() }}{% endblock %}"), ("p", "A{% block b %}x{{ 1 // 0 }}{% endblock %}C")),
])
group("# `extends` that is refused", [
    pages(("c", "a{% extends \"c\" %}b")), pages(("c", "{% extends \"p\" %}"), ("p", "{% extends \"c\" %}")), pages(("c", "{% extends \"p\" %}{% extends \"p\" %}"), P), pages(("c", "{% extends \"p\" %}{% extends \"q\" %}"), P, ("q", "Q")), pages(("c", "{% extends \"p\" %}{% extends \"gone\" %}"), P), pages(("c", "a{% extends \"gone\" %}b")), pages(("c", "a{% extends 1 %}b")), pages(("c", "a{% extends [\"p\"] %}b"), P), pages(("c", "a{% extends x %}b"), P), pages(("c", "a{% extends none %}b"), P),
    pages(("c", "{% extends \"p\" %}{{ 1 // 0 }}"), P), pages(("c", "{% extends \"p\" %}{{ gone() }}"), P), pages(("c", "{% extends \"m\" %}"), ("m", "{% extends \"n\" %}"), ("n", "{% extends \"m\" %}")), pages(("c", "{% extends \"m\" %}"), ("m", "{% extends \"gone\" %}")), pages(("c", "{% for i in [1, 2] %}{% extends \"p\" %}{% endfor %}"), P), pages(("c", "{% for i in [1] %}{% extends \"p\" %}{% endfor %}"), P), pages(("c", "{% extends \"p\" %}"), ("p", "{{ 1 // 0 }}")), pages(("c", "{% extends 1 // 0 %}"), P),
    pages(("c", "{% extends \"p\" %}"), ("p", "{% extends \"p\" %}")), pages(("c", "a{% extends x %}"), P, undefined="strict"), pages(("c", "{% extends \"p\"|safe_ %}"), P, filters={"safe_": "safe"}),
])
group("# `super()`: the body behind, printed where it stands, or as a text", [
    pages(("c", "{% extends \"p\" %}{% block b %}y{{ super() }}z{% endblock %}"), P), pages(("c", "{% extends \"p\" %}{% block b %}{% set s = super() %}{{ s }}{{ s }}{% endblock %}"), P), pages(("c", "{% extends \"p\" %}{% block b %}{{ super() ~ \"!\" }}{% endblock %}"), P), pages(("c", "{% extends \"p\" %}{% block b %}{{ super()|twice }}{% endblock %}"), P), pages(("c", "{% extends \"p\" %}{% block b %}{% do super() %}{% endblock %}"), P), pages(("c", "{% extends \"p\" %}{% block b %}{{ (super()) }}{{ [super(), super()] }}{% endblock %}"), P),
    case("{{ super() }}"), case("a{{ super() ~ 1 }}"), case("{% block b %}{{ super() }}{% endblock %}"), pages(("c", "{% extends \"p\" %}{% block b %}{{ super(1) }}{% endblock %}"), P), pages(("c", "{% extends \"p\" %}{% block b %}{{ super(a=1) }}{% endblock %}"), P), pages(("c", "{% extends \"p\" %}{% block b %}{{ super(*[]) }}{% endblock %}"), P), pages(("c", "{% extends \"p\" %}{% block b %}{{ super(*[1]) }}{% endblock %}"), P), pages(("c", "{% extends \"p\" %}{% block b %}{{ super(1 // 0) }}{% endblock %}"), P), pages(("c", "{% extends \"p\" %}{% block d %}{{ super() }}{% endblock %}{% block b %}{{ self.d() }}{% endblock %}"), P),
    pages(("c", "{% extends \"p\" %}{% block b %}{{ super() }}{% endblock %}"), ("p", "A{% block b %}{{ super() }}{% endblock %}")), pages(("c", "{% extends \"p\" %}{% block b %}{{ super() }}{% endblock %}"), ("p", "A{% block b %}x{{ 1 // 0 }}{% endblock %}C")), pages(("c", "{% extends \"p\" %}{% block b %}{% set s = super() %}{% endblock %}"), ("p", "A{% block b %}x{{ 1 // 0 }}{% endblock %}C")), pages(("c", "{% extends \"p\" %}{% block b %}{% set v = 1 %}{{ super() }}{{ v }}{% endblock %}"), ("p", "{% block b %}{{ v }}{% set v = 2 %}{{ v }}{% endblock %}{{ v }}")),
    pages(("c", "{% extends \"p\" %}{% block b %}{{ super() }}{{ self.b() }}{% endblock %}"), ("p", "{% block b %}x{% endblock %}"), limit=9), pages(("c", "{% extends \"p\" %}{% block b %}[{{ super() }}]{% endblock %}"), ("p", "{% block b %}{{ self.b() }}{% endblock %}"), limit=9), pages(("c", "{% extends \"p\" %}{% block b %}c{{ super() }}{% endblock %}"), ("p", "{% if not i %}{% set i = 1 %}{% block b %}p{% endblock %}{% endif %}{{ self.b() }}")), pages(("c.html", "{% extends \"p\" %}{% block b %}{% set s = super() %}{{ s }}{{ \"<\" }}{% endblock %}"), ("p", "{% block b %}<{{ \"<\" }}{% endblock %}")), pages(("c.html", "{% extends \"p\" %}{% block b %}{% autoescape false %}{% set s = super() %}{% endautoescape %}{{ s }}{% endblock %}"), ("p", "{% block b %}<{{ \"<\" }}{% endblock %}")),
    pages(("c", "{% extends \"p\" %}{% block b %}{% for i in [1, 2] %}{{ super() }}{% endfor %}{% endblock %}"), ("p", "{% block b %}{{ i }}{{ loop.index0 }}{% endblock %}")), pages(("c", "{% set super = 5 %}{{ super }}{% extends \"p\" %}{% block b %}{{ super }}{{ super() }}{% endblock %}"), P), pages(("c", "{% extends \"p\" %}{% block b %}{% include \"i\" %}{% endblock %}"), P, ("i", "{{ super() }}")), pages(("c", "{% extends \"p\" %}{% block b %}{% include \"i\" %}{% endblock %}"), P, ("i", "{% block b %}{{ super() }}{% endblock %}")),
    pages(("c", "{% extends \"p\" %}{% block b %}{% filter twice %}{{ super() }}{% endfilter %}{% set s %}{{ super() }}{% endset %}{{ s }}{% endblock %}"), P), pages(("c", "{% extends \"p\" %}{% block b %}{{ super()|named }}{{ super is right }}{% endblock %}"), ("p", "{% block b %}{{ 1|named }}{% endblock %}")), pages(("c", "{% extends \"p\" %}{% block b %}{{ 1|block }}{{ super() }}{% endblock %}{% block d %}{{ 1|block }}{% endblock %}"), ("p", "{% block b %}{{ 1|block }}{{ self.d() }}{{ 1|block }}{% endblock %}{% block d %}{% endblock %}{{ 1|block }}")),
    pages(("c", "{% extends \"p\" %}{% block b %}{% extends \"q\" %}{{ super() }}{% endblock %}"), P, ("q", "Q{% block b %}q{% endblock %}")), pages(("c", "{% block b %}{% extends \"q\" %}{{ super() }}{% endblock %}z"), ("q", "Q{% block b %}q{% endblock %}")), pages(("c", "{% block b %}{% extends \"q\" %}{% endblock %}{{ self.b() }}"), ("q", "Q")), pages(("c", "{% block b %}a{% extends \"q\" %}b{{ i }}{% endblock %}z{{ i }}"), ("q", "Q{% set i = 1 %}{{ i }}")),
])
group("# `self.b()`: a block by its name", [
    case("{% block b %}x{% endblock %}{{ self.b() }}"), case("{{ self.b() }}{% block b %}x{% endblock %}"), case("{{ self.b() ~ self.b() }}{% if 0 %}{% block b %}x{% endblock %}{% endif %}"), case("{{ self.b() }}"), case("a{{ self.b() ~ 1 }}"), case("{% block b %}{{ self.c() }}{% endblock %}{% block c %}y{% endblock %}"), case("{% block b %}x{% endblock %}{{ self.b(1) }}"), case("{% block b %}x{% endblock %}{{ self.b }}{{ self }}"), case("{% block b %}x{% endblock %}{{ self[\"b\"] }}"), case("{% block b %}x{% endblock %}{{ self.b.c() }}"),
    case("{% block b %}x{% endblock %}{% set s = self.b() %}{{ s }}{{ s|twice }}"), case("{% block b %}x{% endblock %}{% do self.b() %}{% do self.gone() %}"), case("{% block b %}{{ i }}{% endblock %}{% for i in [1, 2] %}{{ self.b() }}{% endfor %}"), case("{% block b %}{{ \"<\" }}{% endblock %}{{ self.b() }}{{ self.b() ~ \"<\" }}", name="t.html"), case("{% block b %}{{ \"<\" }}{% endblock %}{% set s = self.b() %}{{ s }}", name="t.html"), case("{% block b %}x{{ 1 // 0 }}{% endblock %}", name="t"), case("{% if 0 %}{% block b %}x{{ 1 // 0 }}{% endblock %}{% endif %}a{% set s = self.b() %}"),
    pages(("c", "{% extends \"p\" %}{{ self.b() }}{{ 1 ~ self.b() }}"), ("p", "{% block b %}{{ 1 // 0 }}{% endblock %}")), pages(("c", "{{ self.b() }}{% extends \"p\" %}{% block b %}c{% endblock %}"), P), pages(("c", "{% extends \"p\" %}{% set s = self.b() %}{% block d %}[{{ s }}]{% endblock %}"), ("p", "{% block b %}x{% endblock %}{{ self.d() }}")), pages(("c", "{% extends \"p\" %}{{ self.gone() }}"), P), pages(("c", "{% extends \"p\" %}"), ("p", "{{ self.gone() }}")), case("{% set s %}{{ self.b() }}{% endset %}{{ s }}{% block b %}x{% endblock %}"), case("{% filter twice %}{{ self.b() }}{% endfilter %}{% block b %}x{% endblock %}"), case("{% block b %}x{% endblock %}{{ self.b()[0] }}{{ self.b() is right }}{{ self.b() if self.b() }}"),
    case("{% set self_ = 1 %}{% block b %}x{% endblock %}{{ self.b() }}{{ self_ }}"), case("{{ self.b() }}{% block b %}{% if i %}{{ i }}{% endif %}{% endblock %}"), {"expression": "super()"}, {"expression": "self.b()"}, {"expression": "1 ~ self.b()"}, {"expression": "self"}, {"expression": "self.b"},
])
group("# what a discard lets run, and what not", [
    pages(("c", "{% extends \"p\" %}{% include \"i\" %}"), ("p", "P"), ("i", "{% block b %}{{ 1 // 0 }}{% endblock %}")), pages(("c", "{% include \"i\" %}"), ("i", "{% block b %}i{% endblock %}")), pages(("p", "{% block b %}x{% endblock %}{% include \"i\" %}"), ("i", "{% block b %}i{% endblock %}")), pages(("c", "{% extends \"p\" %}{% block b %}{% include \"i\" %}{% endblock %}"), P, ("i", "{{ super() }}")),
    pages(("c", "{% set x %}a{% extends \"p\" %}b{% endset %}{{ x }}c"), ("p", "P")), pages(("c", "{% set x %}a{% extends \"p\" %}b{% endset %}{% set y = x is right %}{% block b %}{{ x }}{{ y }}{% endblock %}"), P), pages(("c", "{% filter args %}a{% extends \"p\" %}b{% endfilter %}c"), P), pages(("c", "{% extends \"p\" %}{% set x %}a{% endset %}{% block b %}{{ x }}{% endblock %}"), P), pages(("c", "{% extends \"p\" %}{% set x %}{% block d %}{{ 1 // 0 }}{% endblock %}{% endset %}"), P), pages(("c", "{% for i in [1, 2] %}{% set x %}{% extends \"p\" %}{% break %}{% endset %}{% endfor %}"), P),
    pages(("c", "{% extends \"p\" %}{% block b %}y{% endblock %}"), ("p", "{% set s %}{% block b %}x{% endblock %}{% endset %}{{ s }}{{ s }}")), pages(("c", "{% from \"m\" import a %}{{ a }}"), ("m", "{% block b %}{{ 1 // 0 }}{% endblock %}{% set a = 1 %}")), pages(("c", "{% from \"m\" import a %}{{ a }}"), ("m", "{% set a = self.b() %}{% block b %}x{% endblock %}")), pages(("c", "{% from \"m\" import a %}{{ a }}"), ("m", "{{ 1 // 0 }}{% set a = 1 %}")), pages(("c", "{% import \"m\" as m %}{{ m }}"), ("m", "[{% block b %}x{% endblock %}]")),
    pages(("c", "{% from \"m\" import a %}[{{ a }}]"), ("m", "{% extends \"p\" %}{% set a = 1 %}"), ("p", "{% set a = a + 1 %}P")), pages(("c", "{% import \"m\" as m %}[{{ m }}{{ m.a }}]"), ("m", "n{% extends \"p\" %}{% set a = 1 %}n"), ("p", "{% set a = a + 1 %}P")), pages(("c", "a{% include \"i\" %}b"), ("i", "n{% extends \"p\" %}n{% block b %}i{% endblock %}"), P), pages(("c", "{% extends \"p\" %}{% include \"i\" %}"), P, ("i", "{% extends \"q\" %}"), ("q", "{{ 1 // 0 }}")), pages(("c", "{% extends \"p\" %}{% include \"i\" %}{% block b %}{% include \"i\" %}{% endblock %}"), P, ("i", "{% extends \"q\" %}"), ("q", "Q")),
    pages(("c", "{% include \"i\" %}{% include \"i\" %}"), ("i", "{% extends \"p\" %}"), P), pages(("c", "{% extends \"p\" %}{% include \"i\" %}"), P, ("i", "{% extends \"p\" %}")), pages(("c", "{% include \"i\" %}{% extends \"p\" %}"), P, ("i", "{% extends \"p\" %}")), pages(("c", "{% extends \"p\" %}{% block b %}{{ x }}{% include [\"gone\", \"i\"] ignore missing %}{% include [\"gone\"] ignore missing %}{% endblock %}"), P, ("i", "I{{ x }}"), context={"x": 2}),
    pages(("c", "{% extends \"p\" %}{% block b %}{% include \"i\" %}{{ self.d() }}{% endblock %}{% block d %}d{% endblock %}"), P, ("i", "{{ self.d() }}{% block d %}id{% endblock %}")), pages(("c", "{% block b %}c{% endblock %}{% include \"i\" %}{{ self.b() }}"), ("i", "{{ 1|block }}{{ self.b() }}")), pages(("c", "{% block b %}{% include \"i\" %}{% endblock %}"), ("i", "{{ 1|block }}{{ super() }}")), pages(("c", "{% block b %}{% include \"i\" %}{{ 1|block }}{{ 1|named }}{% endblock %}{{ 1|block }}"), ("i", "{{ 1|block }}{{ 1|named }}{% block d %}{{ 1|block }}{% endblock %}")),
])
group("# imports: a module is what a template leaves, with its text", [
    pages(("c", "{% import \"m\" as m %}{{ m }}|{{ m.a }}|{{ m._b }}"), ("m", "T{% set a = 1 %}{% set _b = 2 %}{{ a }}")), pages(("c", "{% import \"m\" as m %}{{ [m] }}{{ m|args }}"), ("m", "T{% set a = 1 %}")), pages(("c", "{% import \"m\" as m %}{% for k in m %}{{ k }}={{ m[k] }};{% endfor %}"), ("m", "{% set b = 1 %}{% set a = [2] %}{% set b = 3 %}")), pages(("c", "{% import \"m\" as m %}{{ \"a\" in m }}{{ \"_b\" in m }}{{ m[\"a\"] }}{{ m.gone }}"), ("m", "{% set a = 1 %}{% set _b = 1 %}")),
    pages(("c", "{% import \"m\" as m %}{{ m.f(1) }}"), ("m", "{% set f = g %}"), functions={"g": "arguments"}), pages(("c", "{% import \"m\" as m %}{{ m.gone() }}"), ("m", "")), pages(("c", "{% import \"m\" as m %}{{ m.a() }}"), ("m", "{% set a = 1 %}")), pages(("c", "{% import \"m\" as m %}{{ f(**m) }}"), ("m", "{% set a = 1 %}"), functions={"f": "arguments"}), pages(("c", "{% import \"m\" as m %}{% set a, b = m %}"), ("m", "{% set a = 1 %}{% set b = 1 %}")), pages(("c", "{% import \"m\" as m %}{{ f(*m) }}"), ("m", "{% set b = 1 %}{% set a = 1 %}"), functions={"f": "arguments"}),
    pages(("c.html", "{% import \"m\" as m %}{{ m }}"), ("m", "<{{ \"<\" }}{% set a = 1 %}")), pages(("c.html", "{% import \"m.html\" as m %}{{ m }}"), ("m.html", "<{{ \"<\" }}")), pages(("c.json", "{% import \"m\" as m %}{{ m }}"), ("m", "T{% set a = \"x\" %}")), pages(("c", "{% import \"m\" as m %}{{ m ~ 1 }}{{ \"t\" if m }}{{ m == {\"a\": 1} }}"), ("m", "T{% set a = 1 %}")), pages(("c", "{% import \"m\" as m %}{{ \"t\" if m else \"f\" }}"), ("m", "T{% set _a = 1 %}")), pages(("c", "{% import \"m\" as m %}{{ dict(m) }}"), ("m", "{% set a = 1 %}")), pages(("c", "{% import \"m\" as m %}{{ namespace(m) }}"), ("m", "{% set a = 1 %}")), pages(("c", "{% import \"m\" as m %}{{ dict(**m) }}{{ namespace(**m) }}"), ("m", "{% set a = 1 %}")),
    pages(("c", "{% set v = 1 %}{% import \"m\" as m %}{{ v }}{{ m.v }}{{ w }}"), ("m", "{{ v }}{% set v = v + 1 %}{% set w = 5 %}")), pages(("c", "{% import \"m\" as m with context %}{{ m }}"), ("m", "{{ x }}"), context={"x": 5}), pages(("c", "{% for i in [1, 2] %}{% import \"m\" as m %}{{ m }}{{ m.j }}{% endfor %}{{ m }}"), ("m", "{{ i }}{{ loop.index0 }}{% set j = i * 2 %}")), pages(("c", "{% import \"m\" as a %}{% import \"m\" as b %}{{ a == b }}{{ a }}{{ b }}"), ("m", "{% set v = 1 %}")),
    pages(("c", "{% import \"gone\" as m %}x")), pages(("c", "{% import [\"gone\", \"m\"] as m %}{{ m }}"), ("m", "M")), pages(("c", "{% import [] as m %}{{ m }}{{ m == {} }}x")), pages(("c", "{% import 1 as m %}x")), pages(("c", "{% import x as m %}x")), pages(("c", "a{% import \"m\" as m %}"), ("m", "b{{ 1 // 0 }}")), pages(("c", "{% import \"m\" as loop %}"), ("m", "")), pages(("c", "{% import \"m\" as self %}"), ("m", "")), pages(("c", "{% import \"m\" as super %}{{ super }}{{ super.a }}"), ("m", "M{% set a = 1 %}")),
    pages(("c", "{% import \"m\" as m %}{{ m.loop }}"), ("m", "{% for i in [1] %}{% set a = i %}{% endfor %}{% set l = 1 %}")), pages(("c", "{% import \"m\" as m %}{{ m.n.a }}{% set m.n.a = 2 %}{{ m.n.a }}"), ("m", "{% set n = namespace(a=1) %}")), pages(("c", "{% import \"m\" as m %}{% set m.a = 2 %}"), ("m", "{% set a = 1 %}")), pages(("c", "{% import \"m\" as m %}{{ m.k }}"), ("m", "{% import \"k\" as k %}"), ("k", "K{% set a = 1 %}")), pages(("c", "{% import \"c\" as m %}")), pages(("c", "{% if x %}{% import \"m\" as m %}{% endif %}[{{ m }}]"), ("m", "M"), context={"x": 0}),
    pages(("c", "{% import \"m\" as m %}{{ m.d }}"), ("m", "{% set d = x %}"), context={"x": {"a": [1, {"b": 2}]}}), pages(("c", "{% extends \"p\" %}{% import \"m\" as m %}{% block b %}{{ m }}{{ m.a }}{% endblock %}"), P, ("m", "M{% set a = 1 %}")), pages(("c", "{% extends \"p\" %}{% block b %}{% import \"m\" as m %}{{ m }}{{ m.a }}{% endblock %}"), P, ("m", "M{% set a = 1 %}")), pages(("c", "{% with %}{% import \"m\" as m %}{{ m.a }}{% endwith %}{{ m }}"), ("m", "{% set a = 1 %}")), pages(("c", "{% set s %}{% import \"m\" as m %}[{{ m }}]{% endset %}{{ s }}{{ m.a }}"), ("m", "M{% set a = 1 %}")),
])
group("# names from templates: looked up behind the template, and stored outside, the last one first", [
    pages(("c", "{% from \"m\" import a, b as c %}{{ a }}{{ c }}{{ b }}"), ("m", "M{% set a = 1 %}{% set b = 2 %}")), pages(("c", "{% from \"m\" import a as x, b as x %}{{ x }}"), ("m", "{% set a = 1 %}{% set b = 2 %}")), pages(("c", "{% from \"m\" import gone %}[{{ gone }}]"), ("m", "")), pages(("c", "{% set v = 3 %}{% from \"m\" import v as w %}{{ w }}"), ("m", "")), pages(("c", "{% from \"m\" import x as w %}{{ w }}"), ("m", ""), context={"x": 5}), pages(("c", "{% from \"m\" import range as r %}{{ r(2) }}"), ("m", "")), pages(("c", "{% from \"m\" import _a %}{{ _a }}"), ("m", "{% set _a = 1 %}")),
    pages(("c", "{% from \"m\" import a with context %}{{ a }}"), ("m", "{% set a = x %}"), context={"x": 5}), pages(("c", "{% for i in [1, 2] %}{% from \"m\" import a %}{{ a }}{% endfor %}[{{ a }}]"), ("m", "{% set a = i + 1 %}")), pages(("c", "{% for i in [1, 2] %}{% from \"m\" import loop as l %}{{ l.index }}{% endfor %}"), ("m", "")), pages(("c", "{% from \"gone\" import a %}")), pages(("c", "{% from [\"gone\", \"m\"] import a %}{{ a }}"), ("m", "{% set a = 1 %}")), pages(("c", "{% from [] import a %}[{{ a }}]")), pages(("c", "{% from 1 import a %}")), pages(("c", "{% from x import a %}")), pages(("c", "{% from \"m\" import a, %}"), ("m", "")), pages(("c", "{% from \"m\" import %}"), ("m", "")), pages(("c", "{% from \"m\" import a as loop %}"), ("m", "")),
    pages(("c", "{% from \"m\" import a %}x"), ("m", "y{{ 1 // 0 }}")), pages(("c", "{% from \"m\" import a, b %}{{ a }}{{ b }}"), ("m", "{% set a = 1 %}{% set b = 2 %}"), fuel=9), pages(("c", "{% extends \"p\" %}{% from \"m\" import a %}{% block b %}{{ a }}{% endblock %}"), P, ("m", "{% set a = 1 %}")), pages(("c", "{% from \"m\" import f %}{{ f(1) }}"), ("m", "{% set f = g %}"), functions={"g": "arguments"}), pages(("c", "{% from \"m\" import s %}{{ s }}"), ("m.html", ""), ("m", "{% autoescape true %}{% set s %}<{% endset %}{% endautoescape %}")), pages(("c.html", "{% from \"m\" import s, t %}{{ s }}{{ t }}"), ("m", "{% autoescape true %}{% set s %}<{% endset %}{% endautoescape %}{% set t = \"<\" %}")), pages(("c", "{% from \"m\" import super as s, self as t %}"), ("m", "{% set super = 1 %}")), pages(("c", "{% from \"m\" import super as s %}{{ s }}"), ("m", "{% set super = 1 %}")),
])
DEEP = [("c", "{% extends \"p\" %}{% block b %}y{{ super() }}{% endblock %}"), P]
group("# depth: blocks, `super()` and imports take one level each, includes ten", [
    pages(("t", "a{% block b %}x{% endblock %}"), limit=1), pages(("t", "a{% block b %}x{% endblock %}"), limit=2), pages(*DEEP, limit=2), pages(*DEEP, limit=3), pages(("t", "{% block b %}x{% endblock %}{{ 1 ~ self.b() }}"), limit=1), pages(("t", "{% block a %}{% block b %}x{% endblock %}{% endblock %}"), limit=2), pages(("t", "{% block a %}{% block b %}x{% endblock %}{% endblock %}"), limit=3), pages(("t", "{% block b %}a{{ self.b() }}{% endblock %}"), limit=7), pages(("t", "{% block b %}a{{ self.b() }}{% endblock %}")),
    pages(("t", "{% import \"m\" as m %}{{ m }}"), ("m", "M"), limit=1), pages(("t", "{% import \"m\" as m %}{{ m }}"), ("m", "M"), limit=11), pages(("t", "{% import \"m\" as m %}{{ m }}"), ("m", "M"), limit=12), pages(("t", "{% from \"m\" import a %}{{ a }}"), ("m", "M{% set a = 1 %}"), limit=11), pages(("t", "{% from \"m\" import a %}{{ a }}"), ("m", "M{% set a = 1 %}"), limit=12), pages(("t", "{% import \"m\" as m %}{{ m }}"), ("m", "{% block b %}M{% endblock %}"), limit=12), pages(("t", "{% import \"m\" as m %}{{ m }}"), ("m", "{% block b %}M{% endblock %}"), limit=13),
    pages(("t", "{% include \"i\" %}"), ("i", "a{% block b %}x{% endblock %}"), limit=11), pages(("t", "{% include \"i\" %}"), ("i", "a{% block b %}x{% endblock %}"), limit=12), pages(("t", "{% block b %}{% include \"t\" %}{% endblock %}")), pages(("c", "{% extends \"p\" %}"), ("p", "x"), limit=0), pages(("c", "{% extends \"p\" %}"), ("p", "{% extends \"q\" %}"), ("q", "x"), limit=1), pages(("c", "{% extends \"p\" %}{% block b %}{% set s = super() %}{{ s }}{% endblock %}"), ("p", "{% block b %}x{% for i in [1] %}{{ i }}{% endfor %}{% endblock %}"), limit=3), pages(("c", "{% extends \"p\" %}{% block b %}{% set s = super() %}{{ s }}{% endblock %}"), ("p", "{% block b %}x{% for i in [1] %}{{ i }}{% endfor %}{% endblock %}"), limit=4),
    pages(("t", "{% block b %}{{ 2|down }}{% endblock %}"), filters={"down": {"down": "down"}}, limit=4), pages(("t", "{% block b %}{{ 2|down }}{% endblock %}"), filters={"down": {"down": "down"}}, limit=3),
])
L = [("c", "{% extends \"p\" %}{% set v = \"v\" %}{% block b %}y{{ super() }}{{ v }}{% endblock %}"), ("p", "A{% block b %}x{% endblock %}{{ self.b() }}C")]
I = [("c", "{% import \"m\" as m %}{% from \"m\" import a, b as d %}{{ m }}{{ a }}{{ d }}"), ("m", "M{% set a = 1 %}{% set b = 2 %}{% block e %}E{% endblock %}")]
group("# fuel at each step of a page", cut_at(L) + cut_at(I))
group("# prices: blocks, layouts, `super()`, `self.b()`, imports", [done_at(t) for t in (
    [("t", "{% block b %}{% endblock %}")], [("t", "{% block b %}x{% endblock %}")], [("c", "{% extends \"p\" %}"), ("p", "")], [("c", "{% extends \"p\" %}{% block b %}{% endblock %}"), ("p", "{% block b %}{% endblock %}")], [("t", "{% block b %}{% endblock %}{{ self.b() }}")], [("t", "{% block b %}{% endblock %}{{ self.b() ~ 1 }}")], [("t", "{% block b %}{% endblock %}{% do self.b() %}")], [("t", "{% block b %}{% endblock %}{% set s = self.b() %}")],
    [("c", "{% extends \"p\" %}{% block b %}{{ super() }}{% endblock %}"), ("p", "{% block b %}{% endblock %}")], [("c", "{% extends \"p\" %}{% block b %}{% set s = super() %}{% endblock %}"), ("p", "{% block b %}{% endblock %}")], [("c", "{% extends \"p\" %}{% block b %}{% do super() %}{% endblock %}"), ("p", "{% block b %}{% endblock %}")], [("c", "{% extends \"p\" %}{% block b %}{{ super()|same }}{% endblock %}"), ("p", "{% block b %}{% endblock %}")], [("c", "{% extends \"p\" %}{{ self.b() }}{{ 1 ~ self.b() }}{% block b %}{{ 1 }}{% endblock %}"), ("p", "{% block b %}{% endblock %}")],
    [("t", "{% import \"m\" as m %}"), ("m", "")], [("t", "{% import \"m\" as m %}"), ("m", "x{% set a = 1 %}")], [("t", "{% import [\"n\", \"m\"] as m %}"), ("m", "")], [("t", "{% from \"m\" import a %}"), ("m", "")], [("t", "{% from \"m\" import a, b, c as d %}"), ("m", "x")], [("t", "{% set x %}{% block b %}{% endblock %}{% endset %}")], [("t", "{% include \"i\" %}"), ("i", "{% extends \"p\" %}x"), ("p", "y")],
    [("c", "{% for i in [1, 2] %}{% set x %}{% extends q if i == 1 else q %}{% break %}{% endset %}{% endfor %}"), ("p", "x")],
)] + [many([("c", "{% for i in [1, 2] %}{% set x %}{% extends \"p\" %}{% break %}{% endset %}{% endfor %}z"), ("p", "x")], fuel=n) for n in (5, 6, 7, 8, 9, 10)])
group("# names: blocks, each alone, and imported names", [dict(c, names=True) for c in (
    pages(*L), pages(*I), pages(("t", "{% set a = 1 %}{% block b %}{{ a }}{{ c }}{% endblock %}")), pages(("t", "{% for i in x %}{% block b %}{{ i }}{% endblock %}{% endfor %}")), pages(("t", "{% import p as m %}{{ m.a }}{% from q import c as d %}{{ c }}{{ d }}")), pages(("t", "{% extends l %}")), pages(("t", "x"), ("o", "{% block b %}{{ y }}{% endblock %}{% from \"t\" import z %}")), pages(("t", "{% if 0 %}{% block b %}{% set q = r %}{{ q }}{% endblock %}{{ q }}{% endif %}")), pages(("t", "{{ self.b() }}{{ super() }}{% block b %}{% endblock %}")),
)] + [dict(c, call="undeclared_variables") for c in (
    pages(("t", "{% set a = 1 %}{% block b %}{{ a }}{{ c.d.e }}{% endblock %}{{ c }}")), pages(("t", "{% block b %}{% set a = 1 %}{% endblock %}{{ a }}")), pages(("t", "{% import p as m %}{{ m.a }}{% from q.r import c as d %}{{ c }}{{ d }}")), pages(("t", "{% extends l.x %}{{ y }}")), pages(("t", "{% for i in x %}{% block b %}{{ i }}{{ loop }}{% endblock %}{% endfor %}")),
)])
BRACKETS = {"formatter": {"times": 2}}
group("# formatters: what is printed in the place of each value", [
    case("{{ \"ab\" }}{{ 1 }}", formatter="first"), case("{{ \"ab\" }}{{ 2 }}{{ [1] }}", formatter={"times": 2}), case("a{{ none }}b", formatter={"times": 2}), case("{{ \"<\" }}{{ \"<\" ~ \"<\" }}", name="t.html", formatter="first"), case("{{ [\"<\"] }}", name="t.html", formatter="first"), case("{{ 1 }}{{ x }}", formatter={"gives": "<i>"}, name="t.html"), case("{{ 1 }}", formatter={"gives": 5}), case("{{ 1 }}{{ 2 }}", formatter="name"), case("a{{ 1 }}b", formatter={"fails": "MissingArgument"}), case("a{{ 1 }}b", formatter={"fails": ["InvalidOperation", "MissingArgument"]}), case("a{{ 1 }}b", formatter={"fails": "OutOfMemory"}), case("a{{ 1 }}b", formatter={"fails": "BadStream"}),
    case("{{ gone }}x", formatter={"gives": "u"}), case("{{ gone }}x", formatter={"gives": "u"}, undefined="strict"), case("{{ gone }}x", formatter={"gives": "u"}, undefined="semi_strict"), case("{{ 1 if 0 }}x", formatter={"gives": "u"}, undefined="strict"), case("{% set s %}{{ \"a\" }}{% endset %}{{ s }}", formatter={"times": 2}), case("{% set s %}{{ \"<\" }}{% endset %}{{ s }}", name="t.html", formatter="first"), case("{% filter same %}{{ \"a\" }}{% endfilter %}", formatter={"times": 2}), case("{% autoescape \"html\" %}{{ 1 }}{% endautoescape %}{{ 2 }}", formatter="escape"), case("{% block b %}{{ 1 }}{% endblock %}", formatter="block"), case("{{ 1 }}", formatter="block"), case("{{ 1 }}", formatter="undefined", undefined="chainable"), case("{{ 1 }}{{ \"a\" }}", formatter="call"), case("{{ \"a\" }}", formatter="lookup"),
    pages(("c", "{{ 1 }}{% include \"i\" %}{{ 1 }}"), ("i", "{{ 1 }}"), formatter="name"), pages(("c", "{% extends \"p\" %}{% block b %}{{ 1 }}{% endblock %}"), ("p", "{{ 1 }}{% block b %}{% endblock %}{{ 1 }}"), formatter="name"), case("{% do put(\"n\", 5) %}{{ 1 }}", formatter={"get": "n"}, functions={"put": "set"}), case("data{{ 1 }}data", formatter={"gives": ""}), case("{{ 1 ~ \"a\" }}{{ [1, \"a\"] ~ 1 }}", formatter={"times": 2}), case("{{ 1 }}{{ 2 }}", formatter={"gives": "x"}, fuel=4), case("{{ 1 }}{{ 2 }}", formatter={"gives": "x"}, fuel=5), case("{% for i in [1, 2, 3] %}{{ i }}{% endfor %}", formatter={"gives": "ab"}, room=3), {"expression": "1 ~ 2", "formatter": {"gives": "x"}}, case("{{ x }}", formatter="safe", context={"x": "<"}, name="t.html"), case("{{ x }}", formatter="safe", context={"x": 1}),
    {"calls": [{"format": "a"}, {"format": 1}], "templates": [["t.html", ""]], "main": "t.html", "formatter": {"times": 2}}, {"calls": [{"format": "<"}, {"format": ["<"]}, {"format": None}], "templates": [["t.html", ""]], "main": "t.html"}, {"calls": [{"format": "<"}, {"format": [1, "a"]}]}, {"calls": [{"format": "a"}], "formatter": {"fails": "UnknownBlock"}}, {"calls": [{"format": {"a": "\""}}], "templates": [["t.json", ""]], "main": "t.json"}, {"calls": [{"format": 1}], "formatter": "name", "templates": [["t", ""]], "main": "t"},
])
group("# joins: the name that a name means in a template", [
    pages(("a/c", "{% include \"i\" %}"), ("a/i", "AI"), ("i", "I"), join="beside"), pages(("a/c", "{% include \"i\" %}"), ("i", "I"), join="beside"), pages(("a/c", "{% include \"i\" %}"), ("i", "I")), pages(("a/c", "{% include [\"n\", \"i\"] %}"), ("a/i", "AI"), join="beside"), pages(("a/c", "{% include \"b/i\" %}"), ("a/b/i", "{% include \"j\" %}"), ("a/b/j", "J"), ("j", "no"), join="beside"), pages(("a/c", "{% include \"n\" ignore missing %}x"), join="beside"), pages(("c", "{% include \"i\" %}"), ("x/i", "XI"), join={"behind": "x/"}), pages(("c", "{% include \"i\" %}"), ("c/i", "{% include \"j\" %}"), ("c/i/j", "J"), join="under"),
    pages(("a/c", "{% extends \"p\" %}{% block b %}y{{ super() }}{% endblock %}"), ("a/p", "A{% block b %}x{% endblock %}"), join="beside"), pages(("a/c", "{% extends \"../p\" %}{% block b %}y{{ super() }}{% endblock %}"), ("a/../p", "A{% block b %}x{% endblock %}"), join="beside"), pages(("c", "{% extends \"c\" %}"), ("x/c", "{% extends \"c\" %}"), join={"behind": "x/"}), pages(("c", "{% extends \"c\" %}n"), ("x/c", "X"), join={"behind": "x/"}), pages(("c", "{% extends \"c\" %}{% block b %}{{ super() }}{% endblock %}"), ("c/c", "{% extends \"c\" %}{% block b %}2{{ super() }}{% endblock %}"), ("c/c/c", "{% block b %}3{% endblock %}"), join="under"), pages(("a/c", "{% import \"m\" as m %}{{ m }}{% from \"m\" import a %}{{ a }}"), ("a/m", "M{% set a = 1 %}"), join="beside"),
    pages(("a/c", "{% extends \"b/p\" %}{% block b %}{% include \"i\" %}{% endblock %}"), ("a/b/p", "{% include \"i\" %}{% block b %}{% endblock %}"), ("a/i", "ai"), ("a/b/i", "abi"), join="beside"), pages(("a/c", "{% extends \"b/p\" %}{% block b %}{{ super() }}{% include \"i\" %}{% endblock %}"), ("a/b/p", "{% block b %}{% include \"i\" %}{% endblock %}"), ("a/i", "ai"), ("a/b/i", "abi"), join="beside"), pages(("c", "a{% include \"i\" %}"), ("i", ""), join={"fails": "MissingArgument"}), pages(("c", "a{% extends \"i\" %}"), ("i", ""), join={"fails": ["InvalidOperation", "MissingArgument"]}), pages(("c", "a{% include \"i\" %}"), ("i", ""), join={"fails": "OutOfMemory"}), pages(("c", "a{% include \"i\" ignore missing %}"), join={"fails": "TemplateNotFound"}), pages(("c", "a{% include [] %}b"), join={"fails": "MissingArgument"}), pages(("c", "a{% include [1, \"i\"] %}b"), join={"fails": "MissingArgument"}),
    pages(("c", "{% include \"i\" %}"), ("i", "x"), join={"fails": "BadStream"}), {"templates": [["a/c", "{% include \"i\" %}"], ["a/i", "x"]], "join": "beside", "names": True}, {"source": ["a/s", "{% include \"i\" %}{% extends \"p\" %}"], "templates": [["a/i", "I"], ["a/p", "P"]], "join": "beside"},
    {"calls": [{"get_template": "i"}, {"get_template": "n"}], "templates": [["a/c", ""], ["a/i", ""]], "main": "a/c", "join": "beside"}, {"calls": [{"get_template": "a/i"}, {"get_template": "i"}], "templates": [["a/c", ""], ["a/i", ""]], "main": "a/c"}, {"calls": [{"get_template": "i"}], "templates": [["a/c", ""]], "main": "a/c", "join": {"fails": "UnknownTest"}}, {"calls": [{"get_template": "c"}], "templates": [["c", ""]]},
])
group("# calls on a state: its blocks", [
    {"calls": [{"render_block": "b"}, {"render_block": "b"}, {"render_block": "gone"}, {"current_block": True}], "templates": [["t", "a{% block b %}x{% endblock %}"]], "main": "t"}, {"calls": [{"render_block": "b"}], "templates": [["t", ""]]}, {"calls": [{"render_block": "b"}, {"current_block": True}, {"tell": True}], "templates": [["t", "{% block b %}x{{ 1 // 0 }}{% endblock %}"]], "main": "t"}, {"calls": [{"render_block": "b"}], "templates": [["t", "{% block b required %}{% endblock %}"]], "main": "t"}, {"calls": [{"render_block": "b"}], "templates": [["t", "{% block b %}{{ super() }}{% endblock %}"]], "main": "t"}, {"calls": [{"render_block": "b"}], "templates": [["t.html", "{% block b %}{{ \"<\" }}<{% endblock %}"]], "main": "t.html"},
    {"calls": [{"render_block": "b"}, {"get_temp": "n"}], "templates": [["t", "{% block b %}{% do put(\"n\", 5) %}{{ 1|block }}{{ 1|named }}{% endblock %}"]], "main": "t", "functions": {"put": "set"}, "filters": {"block": "block", "named": "name"}}, {"calls": [{"render_block": "b"}], "limit": 0, "templates": [["t", "{% block b %}x{% endblock %}"]], "main": "t"}, {"calls": [{"render_block": "b"}], "limit": 1, "templates": [["t", "{% block b %}x{% endblock %}"]], "main": "t"}, {"calls": [{"render_block": "c"}], "limit": 1, "templates": [["t", "{% block c %}a{% block b %}x{% endblock %}{% endblock %}"]], "main": "t"}, {"calls": [{"render_block": "b"}, {"render_block": "b"}], "templates": [["t", "{% block b %}{% extends \"p\" %}{{ super() }}{% endblock %}"], ["p", "P{% block b %}q{% endblock %}"]], "main": "t"},
    {"calls": [{"render_block": "b"}], "globals": {"g": 7}, "templates": [["t", "{% block b %}{{ g }}{{ x }}{% include \"i\" %}{% endblock %}"], ["i", "{{ g }}I"]], "main": "t"},
])

def lined(c):
    return json.dumps({k: c[k] for k in KEYS if k in c and c[k] is not False or k == "escapes" and k in c}, ensure_ascii=False)


def main():
    lines = open(sys.argv[1], encoding="utf-8").read().split("\n")
    decoder = json.JSONDecoder()
    seen = {l[:decoder.raw_decode(l)[1]] for l in lines if l.startswith("{")}
    headings = {l for l in lines if l.startswith("#")}
    total = 0
    for out, groups in (("new", GROUPS),):
        written = []
        for heading, cases in groups:
            assert heading not in headings, heading
            block = []
            for c in cases:
                c = with_join(c)
                assert set(c) <= set(KEYS), set(c) - set(KEYS)
                text = lined(c)
                if text in seen:
                    print("stands already:", text[:150], file=sys.stderr)
                    continue
                seen.add(text)
                said = model.answer(json.loads(text))
                if said.startswith("?"):
                    print("not told:", text[:200], said, file=sys.stderr)
                block.append((text, said))
            written.append((heading, block))
            total += len(block)
        with open(f"{sys.argv[2]}/{out}_stdout", "w", encoding="utf-8", newline="\n") as f:
            for heading, block in written:
                f.write(heading + "\n")
                for text, said in block:
                    f.write(f"{text} = {said}\n")
        with open(f"{sys.argv[2]}/{out}_stdin", "w", encoding="utf-8", newline="\n") as f:
            for heading, block in written:
                f.write(heading + "\n")
                for text, _ in block:
                    f.write(text + "\n")
        print(out, sum(len(b) for _, b in written))
    print(total)


model.threaded(main)

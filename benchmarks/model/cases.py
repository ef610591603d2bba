"""How cases are written, and what they bring."""
import json
import re
import model

GROUPS = []
EXTRA = []
KEYS = ["globals", "remove_globals", "filters", "tests", "functions", "method", "remove_filters", "remove_tests", "brings", "held", "formatter", "join", "templates", "source", "expression", "main",
        "call", "calls", "after", "names", "room", "context", "fuel", "limit", "undefined", "escapes", "owned", "state", "skip", "temps", "again"]
MODES = ["lenient", "chainable", "semi_strict", "strict"]


def group(heading, cases):
    GROUPS.append((heading, cases))


def extra(heading, cases):
    """Cases that need words which the table has not yet."""
    EXTRA.append((heading, cases))


# what stands under a name that a source has
FILTERS = {
    "twice": {"times": 2}, "args": "arguments", "same": "first", "named": "name", "escape": "escape", "mode": "undefined", "block": "block", "nth": {"at": 2000}, "second": {"at": 1}, "safe": "safe", "down": {"down": "down"}, "word": {"keyword": "a"},
    "called": "call", "through": "filter", "asked": "test", "looked": "lookup", "ofx": {"lookup": "x"}, "ofloop": {"lookup": "loop"}, "ofi": {"lookup": "i"}, "got": {"get": "n"}, "kept": {"temp": "n"},
    "five": {"gives": 5}, "tag": {"gives": "<b>"}, "nothing": {"lookup": "not there"}, "broken": {"fails": "InvalidOperation"}, "unmade": {"fails": "MissingArgument"},
    "f1": {"filter": "f2"}, "f2": {"filter": "f3"}, "f3": {"filter": "same"}, "on": {"filter": "on"}, "to": {"filter": "gone"}, "totest": {"test": "right"}, "toargs": {"filter": "args"},
    "count": {"counts": "n", "filter": "got"},
}
TESTS = {
    "true_": "first", "right": "first", "yes": {"gives": 1}, "no": {"gives": ""}, "eq": "call", "noted": "set", "found": {"lookup": "x"}, "wrong": {"fails": "UndefinedError"}, "t1": {"test": "t2"}, "t2": {"test": "right"},
    "tof": {"filter": "args"}, "togone": {"test": "gone"}, "counted": {"counts": "n", "filter": "got"}, "into": "filter", "at": {"at": 1}, "same": "same",
}
FUNCTIONS = {
    "f": "arguments", "g": "first", "h": {"times": 3}, "c": "call", "l": "lookup", "put": "set", "get": "get", "k": {"counts": "n", "filter": "got"}, "e": {"fails": "TooManyArguments"}, "v": {"gives": 7},
    "where": "name", "how": "escape", "a1": {"keyword": "a"},
}
NEEDS = {"f1": ["f2", "f3", "same"], "f2": ["f3", "same"], "f3": ["same"], "k": ["got"], "count": ["got"], "counted": ["got"], "totest": ["right"], "t1": ["t2", "right"], "t2": ["right"], "tof": ["args"], "toargs": ["args"]}
WORD = r"[A-Za-z_][A-Za-z_0-9]*"


def brought(texts):
    """What is brought where such texts stand: what they name as filters, tests and functions, and what these go on to."""
    filters, tests, functions = set(), set(), set()
    for t in texts:
        quoted = set(re.findall(r'"(%s)"' % WORD, t))
        bare = re.sub(r'"[^"]*"', '""', t)
        filters |= set(re.findall(r"(?:\||%% filter)\s*(%s)" % WORD, bare.replace("%", "%%"))) | (quoted if re.search("through|into|up\\(", bare) else set())
        tests |= set(re.findall(r"\bis\s+(?:not\s+)?(%s)" % WORD, bare)) | (quoted if "asked" in bare else set())
        functions |= set(re.findall(r"(?<![|\w.])(?<!is )(?<!is not )(?<!\| )(%s)" % WORD, bare)) | (quoted if re.search(r"looked|\bl\(", bare) else set())
    functions -= {"filter", "set"}
    for w in list(filters | tests | functions):
        for n in NEEDS.get(w, []):
            (tests if n in TESTS and n not in FILTERS else filters).add(n)
    out = {}
    for key, palette, words in (("filters", FILTERS, filters), ("tests", TESTS, tests), ("functions", FUNCTIONS, functions)):
        mine = {n: d for n, d in palette.items() if n in words}
        if mine:
            out[key] = mine
    return out


def with_brought(out, texts):
    for key, mine in brought(texts).items():
        if key not in out:
            out[key] = mine
        if not out[key]:
            del out[key]
    for key in ("filters", "tests", "functions"):
        if key in out and not out[key]:
            del out[key]
    return out


X = {"x": 5, "y": [1, 2], "d": {"a": 1}}


def context_for(source):
    words = set(re.findall(r"[A-Za-z_][A-Za-z_0-9]*", source))
    return {n: v for n, v in X.items() if n in words}


def case(source, name="t", **more):
    out = {"templates": [[name, source]]}
    out.update(more)
    if "context" not in out and more.get("undefined") is None:
        found = context_for(source)
        if found:
            out["context"] = found
    return with_brought(out, [source])


def plain(*sources, **more):
    return [case(s, **more) for s in sources]


def many(templates, **more):
    out = {"templates": [list(t) for t in templates]}
    out.update(more)
    return with_brought(out, [s for t in templates if t and isinstance(t, (list, tuple)) for s in t[1:] if s])


def expr(source, **more):
    out = {"expression": source}
    out.update(more)
    if "context" not in out and more.get("undefined") is None:
        found = context_for(source)
        if found:
            out["context"] = found
    return with_brought(out, [source])


def priced(*sources, **more):
    """Each source under the least fuel that it is done with, which tells its price."""
    return [case(s, fuel=model.price_of(case(s, **more)) + 1, **more) for s in sources]


def refused_at(*sources, **more):
    """Each source that ends with a fault, under the fuel that reaches it and the one below."""
    return [case(s, fuel=model.price_of(case(s, **more)) + d, **more) for s in sources for d in (1, 0)]


def modes(*sources, **more):
    out = []
    for s in sources:
        answers = [model.answer(case(s, undefined=m, **more)) for m in MODES]
        told = MODES if len(set(answers)) > 1 else ["lenient", "strict"]
        if len(set(answers)) == 2 and answers[0] == answers[1] == answers[2]:
            told = ["semi_strict", "strict"]
        elif len(set(answers)) == 2 and answers[0] == answers[1] and answers[2] == answers[3]:
            told = ["chainable", "semi_strict"]
        for m in told:
            out.append(case(s, undefined=m, **more))
    return out


def calls(*made, **more):
    out = dict(more)
    out["calls"] = list(made)
    return out


def af(name, *args):
    return {"apply_filter": name, "args": list(args)} if args else {"apply_filter": name}


def pt(name, *args):
    return {"perform_test": name, "args": list(args)} if args else {"perform_test": name}


def gt(name):
    return {"get_temp": name}


def st(name, value):
    return {"set_temp": name, "value": value}


def pages(*templates, **more):
    """Templates by their texts: the first is rendered."""
    return many(list(templates), **more)


def with_join(c):
    """The join of a case, told for each of its templates."""
    join = c.get("join")
    names = [t[0] for t in c.get("templates", [])] + ([c["source"][0]] if isinstance(c.get("source"), list) else [])
    if join == "beside":
        c["join"] = {"behind": {n: n[:n.rfind("/") + 1] for n in names if "/" in n}}
    elif join == "under":
        c["join"] = {"behind": {n: n + "/" for n in names}}
    elif join is not None and "behind" in join and isinstance(join["behind"], str):
        c["join"] = {"behind": {n: join["behind"] for n in names}}
    return c


def cut_at(templates, fuels=None, **more):
    """Templates under each fuel, up to the one that they are done with."""
    price = model.price_of(many(templates, **more))
    return [many(templates, fuel=n, **more) for n in (range(1, price + 2) if fuels is None else fuels)]


def done_at(templates, **more):
    """Templates under the least fuel that they are done with."""
    return many(templates, fuel=model.price_of(many(templates, **more)) + 1, **more)


def each(*sets, **more):
    return [many(t, **more) for t in sets]



def lined(c):
    return json.dumps({k: c[k] for k in KEYS if k in c and c[k] is not False or k == "escapes" and k in c}, ensure_ascii=False)

"""Wrong models of macros, call blocks and rounds, one turn each, and the cases that tell them apart: wrong_macros.py STDOUT.. [name]"""
import json
import os
import sys
import threading

HERE = os.path.dirname(os.path.abspath(__file__))
src = open(HERE + "/model.py", encoding="utf-8").read()
M = []


def m(name, *pairs):
    M.append((name, pairs))


STORES = '''            for (name, default), v in reversed(list(zip(m.parameters, values))):
                if default is not None:
                    self.charge()
                    self.charge()
                    if isinstance(v, Undef):
                        v = self.eval(default)
                self.store(("name", name), v)
'''
# arguments and defaults
m("arguments are stored before their defaults", (STORES, '''            for (name, default), v in reversed(list(zip(m.parameters, values))):
                self.frames[-1].locals[name] = v
''' + STORES))
m("arguments from the first to the last", (STORES, STORES.replace("reversed(list(zip(m.parameters, values)))", "zip(m.parameters, values)")))
m("all defaults are evaluated before any argument is stored", (STORES, '''            out = []
            for (name, default), v in reversed(list(zip(m.parameters, values))):
                if default is not None:
                    self.charge()
                    self.charge()
                    if isinstance(v, Undef):
                        v = self.eval(default)
                out.append((name, v))
            for name, v in out:
                self.store(("name", name), v)
'''))
m("a default stands for none too", ("                    if isinstance(v, Undef):\n                        v = self.eval(default)", "                    if isinstance(v, Undef) or v is None:\n                        v = self.eval(default)"))
m("a default stands where nothing was given, and not for undefined", (" for i, n in enumerate(names)], given.get", " for i, n in enumerate(names)], given.get"), ('''        return [vs[i] if i < len(vs) else given.get(n, UNDEF)''', '''        return [(vs[i] if not isinstance(vs[i], Undef) else "") if i < len(vs) else given.get(n, UNDEF)'''))
m("defaults are evaluated where they are given too", ("                    if isinstance(v, Undef):\n                        v = self.eval(default)", "                    d = self.eval(default)\n                    if isinstance(v, Undef):\n                        v = d"))
m("a name given twice is the keyword's", ("        if len(vs) > len(names) or any(n in given for n in names[:len(vs)]):", "        if len(vs) > len(names):"))
m("too many arguments are dropped", ("        if len(vs) > len(names) or any", "        if any"))
m("unknown keywords are dropped", ("        if set(given) - set(names) - ({\"caller\"} if m.caller else set()):", "        if False:"))
m("a keyword map that is handed over is a value", ('''        if vs and isinstance(vs[-1], Kw):
            vs, keywords = vs[:-1], vs[-1].pairs
        given =''', '''        if vs and isinstance(vs[-1], Kw) and not getattr(vs[-1], "held", False):
            vs, keywords = vs[:-1], vs[-1].pairs
        given ='''), ('''            self.charge()
            top = self.frames[-1]
            top.locals[target[1]] = v
''', '''            self.charge()
            top = self.frames[-1]
            if isinstance(v, Kw): v.held = True
            top.locals[target[1]] = v
'''))
m("a missing argument is none", ("given.get(n, UNDEF) for i, n in enumerate(names)]", "given.get(n, None) for i, n in enumerate(names)]"))
m("depth is tested before the arguments", ("        values, caller = self.bound(m, vs)\n        depth = len(self.frames) + self.outer\n        if depth + 6 > self.limit:\n            raise Fault(\"InvalidOperation\")\n", "        depth = len(self.frames) + self.outer\n        if depth + 6 > self.limit:\n            raise Fault(\"InvalidOperation\")\n        values, caller = self.bound(m, vs)\n"))
# closures
m("a closure holds the whole context by value, as it is when the macro is made", ('''        top = self.frames[-1]
        if top.writes is None:
            top.writes = len(self.closures)
            self.closures.append({})
        held = self.closures[top.writes]
        if name not in held:
            held[name] = self.lookup(name) if self.knows(name) else UNDEF
''', '''        top = self.frames[-1]
        if top.writes is None:
            top.writes = len(self.closures)
            self.closures.append({})
'''), ('''        self.charge()
        self.macros.append(MacroRec(macro, "caller" in used, self.frames[-1].writes, self.name))
''', '''        self.charge()
        all_ = {}
        for f in self.frames:
            if f.reads is not None: all_.update(self.closures[f.reads])
            if f.loop is not None and f.variable: all_["loop"] = LoopV(f.loop, self.id)
            all_.update(f.locals)
        self.closures.append(all_)
        self.macros.append(MacroRec(macro, "caller" in used, len(self.closures) - 1, self.name))
'''))
m("a closure holds what the macro uses by value", ('''        self.macros.append(MacroRec(macro, "caller" in used, self.frames[-1].writes, self.name))
''', '''        self.closures.append({n: self.closures[self.frames[-1].writes][n] for n in used - {"caller"}} if self.frames[-1].writes is not None else {})
        self.macros.append(MacroRec(macro, "caller" in used, len(self.closures) - 1, self.name))
'''))
m("a macro sees its caller's frames", ("        self.frames = [Frame(context=self.frames[0].context if self.frames else None), inner]", "        self.frames = self.frames + [inner]"), ("        self.outer = depth + 4\n", "        self.outer = self.outer + 5\n"))
m("a macro sees the first frame of its caller", ("        self.frames = [Frame(context=self.frames[0].context if self.frames else None), inner]", "        self.frames = [self.frames[0] if self.frames else Frame(), inner]"))
m("a macro sees no context", ("        self.frames = [Frame(context=self.frames[0].context if self.frames else None), inner]", "        self.frames = [Frame(), inner]"))
m("the context comes before the closure", ('''            if f.reads is not None and name in self.closures[f.reads]:
                return self.closures[f.reads][name]
            if f.context is not None:
                v = f.context.get(name)
''', '''            c = self.frames[0].context
            if f.reads is not None and name in self.closures[f.reads] and not (c is not None and c.get(name) is not None):
                return self.closures[f.reads][name]
            if f.context is not None:
                v = f.context.get(name)
'''))
m("a closure misses what defaults alone use", ('''    n = Names(False)
    n.region("self", "super")
    n.macro(macro)
    return n.used


def names_of_rounds''', '''    n = Names(False)
    n.region("self", "super")
    n.macro((macro[0], macro[1], [(a, None) for a, _ in macro[2]], macro[3]))
    c = Names(False)
    c.region("self", "super")
    c.macro(macro)
    return n.used | (c.used & {"caller"})


def names_of_rounds'''))
m("a closure misses the macro's own name", ('''        for name in sorted(used - {"caller"}, key''', '''        for name in sorted(used - {"caller", macro[1]}, key'''))
m("a closure misses what macros in the macro use", ('''    n.macro(macro)
    return n.used


def names_of_rounds''', '''    n.macro((macro[0], macro[1], macro[2], [s for s in macro[3] if s[0] != "macro"]))
    return n.used


def names_of_rounds'''))
m("a closure misses `loop`", ('''        for name in sorted(used - {"caller"}, key''', '''        for name in sorted(used - {"caller", "loop"}, key'''))
m("a closure misses names of targets behind dots", ('''    n.macro(macro)
    return n.used


def names_of_rounds''', '''    n.target = lambda t, n=n: None if t[0] == "dotted" else Names.target(n, t)
    n.macro(macro)
    return n.used


def names_of_rounds'''))
m("a closure misses names that a branch stores first", ('''    n.macro(macro)
    return n.used


def names_of_rounds''', '''    n.in_region = lambda body, *names, n=n: ([n.store(x) for x in names], n.body(body))
    n.macro(macro)
    return n.used


def names_of_rounds'''))
m("a closure holds names that the macro's own stores precede", ('''    n.macro(macro)
    return n.used


def names_of_rounds''', '''    n.store = lambda name, n=n: None if name not in [a for a, _ in macro[2]] else Names.store(n, name)
    n.macro(macro)
    return n.used


def names_of_rounds'''))
m("each macro has a closure of its own", ('''        if top.writes is None:
            top.writes = len(self.closures)
            self.closures.append({})
        held =''', '''        if top.writes is None or self.fresh_:
            top.writes = len(self.closures)
            self.closures.append({})
            self.fresh_ = False
        held ='''), ('''        used = names_of_macro(macro)
        for name''', '''        used = names_of_macro(macro)
        self.fresh_ = True
        for name'''))
m("a macro that uses nothing reads no closure", ('''        self.macros.append(MacroRec(macro, "caller" in used, self.frames[-1].writes, self.name))
''', '''        self.macros.append(MacroRec(macro, "caller" in used, self.frames[-1].writes if used - {"caller"} else None, self.name))
'''))
m("a macro that uses nothing makes a closure", ('''        used = names_of_macro(macro)
        for name''', '''        used = names_of_macro(macro)
        if self.frames[-1].writes is None:
            self.frames[-1].writes = len(self.closures)
            self.closures.append({})
        for name'''))
m("enclosing a name again takes what it is now", ("        if name not in held:\n            held[name]", "        if True:\n            held[name]"))
m("a new item drops the closure", ("                self.frames[-1].locals = {}\n                try:", "                self.frames[-1].locals = {}\n                self.frames[-1].writes = None\n                try:"))
m("a new item empties the closure", ("                self.frames[-1].locals = {}\n                try:", "                self.frames[-1].locals = {}\n                if self.frames[-1].writes is not None: self.closures[self.frames[-1].writes].clear()\n                try:"))
m("a new item keeps the locals", ("                self.frames[-1].locals = {}\n                try:", "                try:"))
m("stores go into no closure", ("            if top.writes is not None:\n                self.closures", "            if False:\n                self.closures"))
m("stores go into a closure where it holds the name", ("            if top.writes is not None:\n                self.closures", "            if top.writes is not None and target[1] in self.closures[top.writes]:\n                self.closures"))
m("stores go into the closures of all frames", ('''            if top.writes is not None:
                self.closures[top.writes][target[1]] = v
''', '''            for f in self.frames:
                if f.writes is not None:
                    self.closures[f.writes][target[1]] = v
'''))
m("stores go into the closure that the frame reads", ('''            if top.writes is not None:
                self.closures[top.writes]''', '''            if top.reads is not None:
                self.closures[top.reads][target[1]] = v
            if top.writes is not None:
                self.closures[top.writes]'''))
m("includes store into the closure that stands", ("        writes, top.writes = top.writes, None\n", "        writes = top.writes\n"))
m("what an include makes stays the closure of the scope", ("            top.writes = writes\n\n    def load", "            pass\n\n    def load"))
m("a closure's value goes before the locals", ('''            if name in f.locals:
                return f.locals[name]
''', '''            if f.reads is not None and name in self.closures[f.reads]:
                return self.closures[f.reads][name]
            if name in f.locals:
                return f.locals[name]
'''))
m("an enclosed name that nothing knows is none", ("held[name] = self.lookup(name) if self.knows(name) else UNDEF", "held[name] = self.lookup(name) if self.knows(name) else None"))
m("an enclosed name that nothing knows stays unknown", ("            held[name] = self.lookup(name) if self.knows(name) else UNDEF\n", "            if self.knows(name):\n                held[name] = self.lookup(name)\n"))
m("a macro's name is stored before it is made", ('''            self.store(("name", s[1]), self.made(s))
''', '''            v = self.made(s)
            self.charge()
            self.frames[-1].locals[s[1]] = v
'''))
# caller
m("`caller` is taken where macros in a macro use it", ('''    n = Names(False)
    n.region("self", "super")
    n.macro(macro)
    return n.used


def names_of_rounds''', '''    n = Names(False)
    n.region("self", "super")
    region = n.region
    n.region = lambda *names, n=n: region(*[x for x in names if x != "caller"])
    n.macro(macro)
    return n.used


def names_of_rounds'''))
m("`caller` is taken by every macro", ('({"caller"} if m.caller else set())', '{"caller"}'))
m("`caller` is taken where the body uses it, defaults aside", ('''        self.macros.append(MacroRec(macro, "caller" in used,''', '''        self.macros.append(MacroRec(macro, "caller" in names_of_macro((0, 0, [(a, None) for a, _ in macro[2]], macro[3])),'''))
m("`caller` is taken where the name stands anywhere in the body", ('''        self.macros.append(MacroRec(macro, "caller" in used,''', '''        self.macros.append(MacroRec(macro, "caller" in repr(macro[2:]),'''))
m("`caller` is enclosed", ('''        for name in sorted(used - {"caller"}, key''', '''        for name in sorted(used, key'''))
m("`caller` of the macro around is seen by the body of a call block", ('''        if m.caller:
            inner.locals["caller"] = caller
''', '''        if m.caller:
            inner.locals["caller"] = caller if not isinstance(caller, Undef) or not self.knows("caller") else self.lookup("caller")
'''))
m("`caller` is stored after the arguments", ('''        if m.caller:
            inner.locals["caller"] = caller
''', ''), ('''            self.body(m.body)
        finally:
            for n, v in kept.items():
                setattr(self, n, v)
            del self.captures[height:]
''', '''            if m.caller:
                inner.locals["caller"] = caller
            self.body(m.body)
        finally:
            for n, v in kept.items():
                setattr(self, n, v)
            del self.captures[height:]
'''))
m("a macro without a caller knows no `caller`", ('''        if m.caller:
            inner''', '''        if m.caller and not isinstance(caller, Undef):
            inner'''))
m("the body of a call block is the first keyword", ('''            v = self.call(s[1], [("caller", s[2])])
''', '''            v = self.call((s[1][0], s[1][1], [("caller", s[2])] + s[1][2] if s[1][1][:2] != ("attr", ("var", "self")) else s[1][2]))
'''))
m("the body of a call block is given behind the positions", ('''            elif a[0] == "caller":
                open_.append(("caller", self.made(a[1])))
''', ''), ('''        if any(a[0] in ("kw", "kwspread", "caller") for a in args):
            open_.append(self.keywords(args))
''', '''        if any(a[0] in ("kw", "kwspread") for a in args):
            open_.append(self.keywords(args))
        for a in args:
            if a[0] == "caller": open_.append(self.made(a[1]))
'''))
m("a call block's macro has no name", ('return ("callblock", call, self.macro("caller", parameters, "endcall"))', 'return ("callblock", call, self.macro("", parameters, "endcall"))'))
m("a block of a call block gets the body made", ('''        if callee[0] == "attr" and callee[1] == ("var", "self"):
            args = e[2] or []
            if args:
                args = args + list(last)
''', '''        if callee[0] == "attr" and callee[1] == ("var", "self"):
            args = e[2] or []
            if args:
                args = args + list(last)
            else:
                for l in last: self.made(l[1])
'''))
m("a call block writes nothing", ('''            v = self.call(s[1], [("caller", s[2])])
            self.charge()
            self.emit(v)
''', '''            v = self.call(s[1], [("caller", s[2])])
            self.charge()
'''))
m("a call block writes as it is", ('''            v = self.call(s[1], [("caller", s[2])])
            self.charge()
            self.emit(v)
''', '''            v = self.call(s[1], [("caller", s[2])])
            self.charge()
            self.write(printed(v, self))
'''))
# a macro's run
m("a macro's text is plain", ('''        return self.safe_text("".join(texts))

    def recurse''', '''        return "".join(texts)

    def recurse'''))
m("a macro's text is always safe", ('''        return self.safe_text("".join(texts))

    def recurse''', '''        return Safe("".join(texts))

    def recurse'''))
m("a macro runs under its template's escape", ('''        self.captures.append(texts)
        try:
            for (name, default), v in reversed''', '''        self.captures.append(texts)
        if m.home in self.templates: self.escape = self.templates[m.home][1]
        try:
            for (name, default), v in reversed'''))
m("`autoescape true` in a macro is its template's rule", ("= m.home, None, None, self.escape, 0, ()", "= m.home, None, None, (self.templates[m.home][1] if m.home in self.templates else self.escape), 0, ()"))
m("a macro runs under its caller's name", ("self.heights = m.home, None, None, self.escape, 0, ()", "self.heights = self.name, None, None, self.escape, 0, ()"))
m("a macro has the current block", ("self.heights = m.home, None, None, self.escape, 0, ()", "self.heights = m.home, self.block, None, self.escape, 0, ()"))
m("a macro's run knows that its caller's met an `extends`", ("self.heights = m.home, None, None, self.escape, 0, ()", "self.heights = m.home, None, self.parent, self.escape, 0, ()"))
m("a macro's run runs a parent", ("            self.body(m.body)\n        finally:\n            for n, v in kept", "            self.body(m.body)\n            while self.parent is not None:\n                p, self.parent = self.parent, None\n                self.captures.pop()\n                self.body(self.templates[p][0])\n        finally:\n            for n, v in kept"))
m("an `extends` in a macro makes the caller's run extend", ('("frames", "outer", "name", "block", "parent", "escape", "first", "open", "heights")}\n        blocks', '("frames", "outer", "name", "block", "escape", "first", "open", "heights")}\n        blocks'))
m("a macro keeps the names that its `extends` loaded", ("            del self.captures[height:]\n            del self.loaded[loaded:]\n            for n in list", "            del self.captures[height:]\n            for n in list"))
m("a macro keeps the blocks that its `extends` loaded", ("            for n in list(self.blocks):\n                if n not in blocks:", "            for n in []:\n                if n not in blocks:"))
m("a macro's text is that of the innermost capture", ('''            self.body(m.body)
        finally:
            for n, v in kept''', '''            self.body(m.body)
            texts = self.captures[-1] or []
        finally:
            for n, v in kept'''))
m("a macro's discard stays open", ("            del self.captures[height:]\n            del self.loaded[loaded:]", "            del self.captures[height:height + 1]\n            del self.loaded[loaded:]"))
m("what a macro writes is written as it runs", ("        self.captures.append(texts)\n        try:\n            for (name, default)", "        try:\n            for (name, default)"))
m("a fault in a macro is wrapped", ("            self.body(m.body)\n        finally:\n            for n, v in kept", "            try:\n                self.body(m.body)\n            except Fault as f:\n                raise Fault(\"EvalBlock\", *f.kinds)\n        finally:\n            for n, v in kept"))
for d in (4, 5, 7, 10):
    m(f"a macro's body lies {d} levels below its call", ("        if depth + 6 > self.limit:", f"        if depth + {d} > self.limit:"), ("        self.outer = depth + 4\n", f"        self.outer = depth + {d - 2}\n"))
m("macros do not count", ("        self.outer = depth + 4\n", "        self.outer = 0\n"))
m("a further call does not count where it calls a macro", ('''            if asked[0] == "call":
                return self.called''', '''            if asked[0] == "call":
                if isinstance(asked[1], MacroV):
                    self.outer -= 1
                    try:
                        return self.called(asked[1], asked[2])
                    finally:
                        self.outer += 1
                return self.called'''))
# values
m("macros are equal by their names", ("    return cmp((a.state, a.number), (b.state, b.number))\n\n\nclass Key", "    if ra == 10: return 0\n    return cmp((a.state, a.number), (b.state, b.number))\n\n\nclass Key"))
m("a macro made again is the same", ('''        self.macros.append(MacroRec(macro, "caller" in used, self.frames[-1].writes, self.name))
        return MacroV(len(self.macros) - 1, self.id)''', '''        for i, r in enumerate(self.macros):
            if r.body is macro[3] and r.closure == self.frames[-1].writes: return MacroV(i, self.id)
        self.macros.append(MacroRec(macro, "caller" in used, self.frames[-1].writes, self.name))
        return MacroV(len(self.macros) - 1, self.id)'''))
m("macros before loops in the order", ("        return 9\n    return 10\n", "        return 10\n    return 9\n"))
m("macros are false", ("    if isinstance(v, Ns):\n        return bool(run.pairs_of(v))\n    return True", "    if isinstance(v, MacroV): return False\n    if isinstance(v, Ns):\n        return bool(run.pairs_of(v))\n    return True"))
m("a macro's arguments are a tuple", ('"arguments": Lst([n', '"arguments": Tup([n'))
m("a macro's arguments have `caller`", ('Lst([n for n, _ in m.parameters])', 'Lst([n for n, _ in m.parameters] + (["caller"] if m.caller else []))'))
m("macros have no items", ('is_text(key) else UNDEF\n        if isinstance(v, Ns)', 'is_text(key) and attribute else UNDEF\n        if isinstance(v, Ns)'))
m("macros have methods by their attributes", ('        pairs = v.pairs if isinstance(v, (Map, Module)) else', '        if isinstance(v, MacroV) and name in ("name", "arguments", "caller"): return self.called(self.item(v, name), vs)\n        pairs = v.pairs if isinstance(v, (Map, Module)) else'))
m("macros print by their names alone", ('return "<macro %s>" % run', 'return "%s" % run'))
m("macros of other states are called", ("        if v.state != self.id or v.number >= len(self.macros):", "        if v.number >= len(self.macros):"))
m("macros are foreign to nothing", ("        if v.state != self.id or v.number >= len(self.macros):\n            raise Fault(\"InvalidOperation\")\n        return self.macros[v.number]", "        if not self.macros:\n            raise Fault(\"InvalidOperation\")\n        return self.macros[v.number % len(self.macros)]"))
# rounds
m("a loop of another template takes the running one's loop", ('''        statement, home = l.home
        again =''', '''        statement, home = l.home
        if home != self.name:
            mine = recursive_loops(self.templates[self.name][0]) if self.name in self.templates else []
            if not mine: raise Fault("InvalidOperation")
            statement, home = mine[0], self.name
        again ='''))
m("rounds run in the scopes of their loop", ('''        again = self.opened(items, True, l.home)
        name, self.name = self.name, home
''', '''        at = [i for i, f in enumerate(self.frames) if f.loop is not None and self.loops[f.loop] is l]
        aside = []
        if at:
            aside = self.frames[at[0] + 1:]
            del self.frames[at[0] + 1:]
        again = self.opened(items, True, l.home)
        name, self.name = self.name, home
'''), ('''            self.each(again, statement)
        finally:
            self.name = name
        return''', '''            self.each(again, statement)
        finally:
            self.name = name
            self.frames += aside
        return'''))
m("rounds run under the name of the call", ("        name, self.name = self.name, home\n", "        name = self.name\n"))
m("rounds run under the escape of their template", ("        name, self.name = self.name, home\n", "        name, self.name = self.name, home\n        old_, self.escape = self.escape, (self.templates[home][1] if home in self.templates else self.escape)\n"), ("        finally:\n            self.name = name\n        return", "        finally:\n            self.name = name\n            self.escape = old_\n        return"))
m("`autoescape true` in rounds is their template's rule", ("        name, self.name = self.name, home\n", "        name, self.name = self.name, home\n        old_, self.first = self.first, (self.templates[home][1] if home in self.templates else self.first)\n"), ("        finally:\n            self.name = name\n        return", "        finally:\n            self.name = name\n            self.first = old_\n        return"))
m("rounds have no current block", ("        name, self.name = self.name, home\n", "        name, self.name = self.name, home\n        old_, self.block = self.block, None\n"), ("        finally:\n            self.name = name\n        return", "        finally:\n            self.name = name\n            self.block = old_\n        return"))
m("rounds have an `extends` state of their own", ("        name, self.name = self.name, home\n", "        name, self.name = self.name, home\n        old_, self.parent = self.parent, None\n"), ("        finally:\n            self.name = name\n        return", "        finally:\n            self.name = name\n            self.parent = old_\n        return"))
m("rounds give the text of their own capture", ('''        if named:
            self.captures.append([])
        try:
            self.each(again, statement)
        finally:
            self.name = name
        return self.end_capture() if named else None''', '''        height, texts = len(self.captures), []
        if named:
            self.captures.append(texts)
        try:
            self.each(again, statement)
        finally:
            self.name = name
        if named:
            del self.captures[height]
            return self.safe_text("".join(texts))'''))
m("rounds may reach `else`", ("            self.each(again, statement)\n", "            self.each(again, statement)\n            if not again.items: self.body(statement[6])\n"))
m("rounds are filtered", ("        again = self.opened(items, True, l.home)\n", "        if statement[3] is not None: items = self.kept(statement[1], (\"list\", []), statement[3], items).items\n        again = self.opened(items, True, l.home)\n"), ("    def kept(self, target, it, cond):\n        self.charge()\n        v = self.eval(it)\n        l = self.open_loop(v, False)\n", "    def kept(self, target, it, cond, items=None):\n        self.charge()\n        v = self.eval(it)\n        l = self.open_loop(Lst(items) if items is not None else v, False)\n"))
m("rounds by name are written too", ("        return self.end_capture() if named else None", "        text = self.end_capture() if named else None\n        if named and isinstance(text, str): self.write(plain(text))\n        return text"))
m("rounds' text is plain", ("        return self.end_capture() if named else None", "        text = self.end_capture() if named else None\n        return plain(text) if isinstance(text, Safe) else text"))
m("printed rounds are printed as a text", ("                return self.rounds(self.loops[f.loop], v, False)\n", "                return self.emit(self.rounds(self.loops[f.loop], v, True))\n"))
m("a printed call of `loop` looks it up", ('''        for f in reversed(self.frames):
            if f.loop is not None:
                return self.rounds(self.loops[f.loop], v, False)
        raise Fault("UnknownFunction")''', '''        if self.knows("loop"):
            l = self.lookup("loop")
            if not isinstance(l, LoopV): raise Fault("InvalidOperation")
            return self.rounds(self.loop_of(l), v, False)
        raise Fault("UnknownFunction")'''))
m("a printed call of `loop` takes the innermost recursive loop", ("            if f.loop is not None:\n                return self.rounds", "            if f.loop is not None and self.loops[f.loop].home is not None:\n                return self.rounds"))
m("a printed call of `loop` without a loop is an invalid operation", ('''                return self.rounds(self.loops[f.loop], v, False)
        raise Fault("UnknownFunction")''', '''                return self.rounds(self.loops[f.loop], v, False)
        raise Fault("InvalidOperation")'''))
m("a keyword makes a printed call of `loop` quick too", ('and len(s[1][2]) == 1 and s[1][2][0][0] == "pos":\n            v = self.eval(s[1][2][0][1])', 'and len(s[1][2]) == 1 and s[1][2][0][0] in ("pos", "spread"):\n            v = self.eval(s[1][2][0][1])'))
m("a loop is called with any count", ('''                if len(vs) != 1:
                    raise Fault("InvalidOperation")
                return self.rounds(self.loop_of(f), vs[0], True)''', '''                return self.rounds(self.loop_of(f), vs[0] if vs else UNDEF, True)'''))
m("a loop is called as a value", ("        if isinstance(f, MacroV):\n            return self.macro_call", "        if isinstance(f, LoopV) and len(vs) == 1:\n            return self.rounds(self.loop_of(f), vs[0], True)\n        if isinstance(f, MacroV):\n            return self.macro_call"))
m("every loop can be called", ("        l = self.open_loop(v, True, (s, self.name) if recursive else None)", "        l = self.open_loop(v, True, (s, self.name))"))
m("what is not iterated is a fault without cause", ('            raise Fault("InvalidOperation", *f.kinds)\n        statement', '            raise\n        statement'))
m("what is not iterated is a plain invalid operation", ('            raise Fault("InvalidOperation", *f.kinds)\n        statement', '            raise Fault("InvalidOperation")\n        statement'))
m("what is not iterated is told before whether the loop is recursive", ('''        if l.home is None:
            raise Fault("InvalidOperation")
        try:
            items = self.iterated(v)
        except Fault as f:
            raise Fault("InvalidOperation", *f.kinds)
''', '''        try:
            items = self.iterated(v)
        except Fault as f:
            raise Fault("InvalidOperation", *f.kinds)
        if l.home is None:
            raise Fault("InvalidOperation")
'''))
m("a want of room has a cause", ("        again = self.opened(items, True, l.home)\n", "        try:\n            again = self.opened(items, True, l.home)\n        except Fault as f:\n            raise Fault(\"InvalidOperation\", *f.kinds)\n"))
m("rounds take no level", ("        again = self.opened(items, True, l.home)\n", "        self.limit += 1\n        again = self.opened(items, True, l.home)\n"))
m("a loop in a loop is one deeper", ("        depth = self.loops[around[-1]].depth + 1 if around and self.loops[around[-1]].home is not None else 0\n", "        depth = self.loops[around[-1]].depth + 1 if around else 0\n"))
m("a loop in a recursive one has no depth", ("        depth = self.loops[around[-1]].depth + 1 if around and self.loops[around[-1]].home is not None else 0\n", "        depth = self.loops[around[-1]].depth + 1 if around and home is not None and self.loops[around[-1]].home is home else 0\n"))
m("rounds are one deeper than their loop", ("        again = self.opened(items, True, l.home)\n", "        again = self.opened(items, True, l.home)\n        again.depth = l.depth + 1\n"))
m("depth skips loops that are not recursive", ("        around = [f.loop for f in self.frames if f.loop is not None]\n", "        around = [f.loop for f in self.frames if f.loop is not None and self.loops[f.loop].home is not None]\n"))
m("rounds are rounds of the same record", ("        again = self.opened(items, True, l.home)\n", "        again = self.opened(items, True, l.home)\n        self.frames[-1].loop = self.loops.index(l)\n"))
m("`loop` is unknown in rounds", ("        again = self.opened(items, True, l.home)\n", "        again = self.opened(items, True, l.home)\n        self.frames[-1].variable = False\n"))
m("a `break` in rounds leaves the loop too", ('''            self.each(again, statement)
        finally:
            self.name = name
        return''', '''            self.broke_ = False
            self.each(again, statement)
            if self.broke_:
                self.broke_ = False
                if named: self.end_capture()
                raise Break()
        finally:
            self.name = name
        return'''), ('''                except Break:
                    break
        finally:
            self.heights''', '''                except Break:
                    self.broke_ = True
                    break
        finally:
            self.heights'''))
m("a `break` in rounds closes the captures of the call", ("        self.heights = self.heights + (self.open,)\n        try:\n            while True:\n                self.charge()\n                l.asked += 1", "        self.heights = self.heights + ((self.heights[-1] if self.heights and s[4] else self.open),)\n        try:\n            while True:\n                self.charge()\n                l.asked += 1"))
m("rounds keep an operand: what stood before the call is lost", ('''                return self.rounds(self.loop_of(f), vs[0], True)
            return self.called''', '''                v_ = self.rounds(self.loop_of(f), vs[0], True)
                return v_ if not isinstance(v_, str) or not v_ or len(self.loops[-1].items) < 2 else v_[:-1]
            return self.called'''))
# prices
P = "a price: "
m(P + "a macro's making without its jump", ('''        """The making of a macro."""
        self.charge()
''', '''        """The making of a macro."""
'''))
m(P + "an enclosed name costs nothing", ("            self.charge()\n            self.enclose(name)", "            self.enclose(name)"))
m(P + "names of a macro cost one", ('''        self.charge()
        self.macros.append''', '''        self.charge()
        self.charge()
        self.macros.append'''))
m(P + "a caller's making costs its store", ('''                open_.append(("caller", self.made(a[1])))
''', '''                open_.append(("caller", self.made(a[1])))
                self.charge()
'''))
m(P + "the name `caller` costs one", ('''                open_.append(("caller", self.made(a[1])))
''', '''                self.charge()
                open_.append(("caller", self.made(a[1])))
'''))
m(P + "a default's test costs one", ("                if default is not None:\n                    self.charge()\n                    self.charge()\n", "                if default is not None:\n                    self.charge()\n"))
m(P + "an argument's store costs nothing", ('                self.store(("name", name), v)\n            self.body(m.body)', '                self.frames[-1].locals[name] = v\n            self.body(m.body)'))
m(P + "a `Return` costs one", ("            self.body(m.body)\n        finally:\n            for n, v in kept", "            self.body(m.body)\n            self.charge()\n        finally:\n            for n, v in kept"))
m(P + "a call block's print costs nothing", ('''            v = self.call(s[1], [("caller", s[2])])
            self.charge()
''', '''            v = self.call(s[1], [("caller", s[2])])
'''))
m(P + "the end of rounds' capture costs one", ("        return self.end_capture() if named else None", "        if named: self.charge()\n        return self.end_capture() if named else None"))
m(P + "printed rounds cost a print", ("            self.recurse(v)\n", "            self.recurse(v)\n            self.charge()\n"))
m(P + "the opening of rounds costs one", ("        again = self.opened(items, True, l.home)\n", "        self.charge()\n        again = self.opened(items, True, l.home)\n"))
m(P + "a macro's call is charged behind its run", ('''            vs = self.passed([], args)
            self.charge()
            if callee[1] == "super":''', '''            vs = self.passed([], args)
            if self.knows(callee[1]) and isinstance(self.lookup(callee[1]), MacroV):
                v_ = self.called(self.lookup(callee[1]), vs)
                self.charge()
                return v_
            self.charge()
            if callee[1] == "super":'''))
# names
N = "names: "
m(N + "recursive loops are no units", ("    for l in recursive_loops(body):\n        out |= names_of_rounds(l)\n", ""))
m(N + "recursive loops in macros are no units", ("    for s in body:\n        if s[0] == \"for\" and s[4]:\n            out.append(s)\n        for b in inner_bodies(s):\n            out += recursive_loops(b)", "    for s in body:\n        if s[0] == \"for\" and s[4]:\n            out.append(s)\n        for b in inner_bodies(s) if s[0] != \"macro\" else []:\n            out += recursive_loops(b)"))
m(N + "every loop is a unit", ("        if s[0] == \"for\" and s[4]:\n            out.append(s)", "        if s[0] == \"for\":\n            out.append(s)"))
m(N + "a recursive loop's else part is of its unit", ("    n.target(loop[1])\n    n.body(loop[5])\n    return n.used", "    n.target(loop[1])\n    n.body(loop[5])\n    n.close()\n    n.region()\n    n.body(loop[6])\n    return n.used"))
m(N + "a recursive loop's filter is of its unit", ("    n.target(loop[1])\n    n.body(loop[5])\n    return n.used", "    n.target(loop[1])\n    if loop[3]: n.expr(loop[3])\n    n.body(loop[5])\n    return n.used"))
m(N + "a parameter is stored before its default", ('''            if default is not None:
                self.expr(default)
            self.store(name)
        self.body(s[3])''', '''            self.store(name)
            if default is not None:
                self.expr(default)
        self.body(s[3])'''))
m(N + "parameters from the first to the last", ("        for name, default in reversed(s[2]):\n            if default is not None:\n                self.expr", "        for name, default in s[2]:\n            if default is not None:\n                self.expr"))
m(N + "all defaults before any parameter", ('''        for name, default in reversed(s[2]):
            if default is not None:
                self.expr(default)
            self.store(name)
        self.body(s[3])''', '''        for name, default in reversed(s[2]):
            if default is not None:
                self.expr(default)
        for name, default in s[2]:
            self.store(name)
        self.body(s[3])'''))
m(N + "a macro's name is stored before its body", ('''            self.region("caller")
            self.macro(s)
            self.close()
            self.store(s[1])''', '''            self.store(s[1])
            self.region("caller")
            self.macro(s)
            self.close()'''))
m(N + "a macro's stores stay behind it", ('''            self.region("caller")
            self.macro(s)
            self.close()
            self.store(s[1])''', '''            self.macro(s)
            self.store(s[1])'''))
m(N + "what macros import is not listed", ('"macro": lambda: [s[3]], "callblock": lambda: [s[2][3]]}', '}'), ("def blocks_of(body):", "def _unused():"), ("def imported_names(body):", '''def blocks_of(body):
    out = []
    for s in body:
        if s[0] == "block":
            out.append(s)
        for b in inner_bodies(s):
            out += blocks_of(b)
    return out


def imported_names(body):'''), ("        for b in inner_bodies(s):\n            out += recursive_loops(b)", "        for b in inner_bodies(s) + ([s[3]] if s[0] == 'macro' else [s[2][3]] if s[0] == 'callblock' else []):\n            out += recursive_loops(b)"))
m(N + "the body of a block's call block is not walked", ('''            self.expr(s[1])
            self.region("caller")
            self.macro(s[2])
            self.close()''', '''            self.expr(s[1])
            if s[1][1][:2] != ("attr", ("var", "self")):
                self.region("caller")
                self.macro(s[2])
                self.close()'''))
m(N + "imported names count as used where they are imported", ('''            self.expr(s[1])
            for _, alias in s[2]:
                self.store(alias)''', '''            self.expr(s[1])
            for n_, alias in s[2]:
                self.use(n_)
                self.store(alias)'''))
# syntax
S = "syntax: "
m(S + "a last comma may stand", ('            if out:\n                self.want_sign(",")\n            name = self.alias()\n            if self.skip_sign("="):', '            if out:\n                self.want_sign(",")\n                if self.is_sign(")"):\n                    break\n            name = self.alias()\n            if self.skip_sign("="):'))
m(S + "arguments without defaults may stand behind those with", ("            elif out and out[-1][1] is not None:\n                self.fail()", "            elif False:\n                self.fail()"))
m(S + "reserved names are arguments", ("            name = self.alias()\n            if self.skip_sign(\"=\"):\n                out.append", "            name = self.ident()\n            if self.skip_sign(\"=\"):\n                out.append"))
m(S + "macros have any name", ('        name = self.alias()\n        return self.macro(name,', '        name = self.ident()\n        return self.macro(name,'))
m(S + "blocks may stand in macros", ("self.in_loop, self.in_macro = False, True", "self.in_loop, self.in_macro = False, False"))
m(S + "`break` in a macro is that of the loop around", ("self.in_loop, self.in_macro = False, True", "self.in_macro = True"))
m(S + "parameters are no level", ('''        self.want_sign("(")
        self.deeper()
        out = []
        while not self.is_sign(")"):
            if out:''', '''        self.want_sign("(")
        self.deeper()
        self.up()
        out = []
        while not self.is_sign(")"):
            if out:'''), ('''                out.append((name, None))
        self.up()
        self.want_sign(")")''', '''                out.append((name, None))
        self.want_sign(")")'''))
m(S + "a macro's end has its name", ('        body, _ = self.inner(ender)\n', '        body, _ = self.inner(ender)\n        if self.peek().kind == "ident": self.next()\n'))
m(S + "a call block takes what is printed", ('        if call[0] != "call":\n            self.fail()\n        return ("callblock"', '        if call[0] != "call":\n            call = ("call", call, [])\n        return ("callblock"'))
m(S + "`recursive` before the filter", ('''        cond = None
        if self.skip_word("if"):
            cond = self.expr()
        recursive = self.skip_word("recursive")
''', '''        cond = None
        recursive = self.skip_word("recursive")
        if self.skip_word("if"):
            cond = self.expr()
        recursive = self.skip_word("recursive") or recursive
'''))
# calls that are gone on with, states
m("a macro that is gone on with is found among all values, and answers itself", ('                return self.safe_text(self.macro_text(asked[1], asked[2]))', '                self.macro_text_ = 0\n                if not self.knows(asked[1]): raise Fault("UnknownFunction")\n                return self.called(self.lookup(asked[1]), list(asked[2]))'))
m("an unknown macro that is gone on with is undefined", ('                return self.safe_text(self.macro_text(asked[1], asked[2]))', '                return self.safe_text(self.macro_text(asked[1], asked[2])) if self.knows(asked[1]) else UNDEF'))
m("a block that is gone on with is held back behind an `extends`", ('                return self.block_text(asked[1])', '                return self.block_text(asked[1]) if self.parent is None and not (self.captures and self.captures[-1] is None) else ""'))
m("a block that is gone on with is written", ('                return self.block_text(asked[1])', '                self.run_block(asked[1])\n                return UNDEF'))
m("the text of what is gone on with is plain", ('''    def safe_text(self, text):
        return text if self.escape == "None" else Safe(text)
''', '''    def safe_text(self, text):
        return text if self.escape == "None" or self.outer in (1, 2) else Safe(text)
'''))
m("`call_macro` gives the value", ('return False, quoted(run.macro_text(call["call_macro"], args))', 'return False, told_value(run.called(run.lookup(call["call_macro"]), args) if run.knows(call["call_macro"]) else UNDEF, run)'))
m("calls on a state take no fuel", ("            consumed = consumed + taken if fuel is None else min(fuel, consumed + taken)", "            pass"))
m("a call on a state has the whole fuel", ("None if fuel is None else fuel - consumed)", "fuel)"))


STEPS = 30000


def loaded(text):
    """The model of a text, whose runs end after so many steps."""
    names = {"__name__": "turned"}
    exec(compile(text, "model", "exec"), names)
    run = names["Run"]
    charge = run.charge

    def counted(self):
        charge(self)
        if len(self.trace) > STEPS:
            raise TooLong()

    run.charge = counted
    return names["answer"]


class TooLong(Exception):
    pass


def said_by(answer, case):
    try:
        return answer(json.loads(json.dumps(case)))
    except (TooLong, RecursionError):
        return "no end"
    except Exception as e:
        return "broken: " + repr(e)[:80]


def cases_of(files):
    """The cases with their answers, the shortest first."""
    out, decoder = [], json.JSONDecoder()
    for f in files:
        for l in open(f, encoding="utf-8").read().split("\n"):
            if l.startswith("{"):
                case, at = decoder.raw_decode(l)
                if "s" not in case:
                    out.append((l[:at], case, l[at + 3:]))
    return sorted(out, key=lambda c: len(c[0]))


def one(name, pairs, cases):
    t = src
    for a, b in pairs:
        if a not in t:
            return f"?? no such text: {a[:90]!r}"
        t = t.replace(a, b)
    if t == src:
        return "?? nothing turned"
    answer = loaded(t)
    for text, case, wanted in cases:
        said = said_by(answer, case)
        if said != wanted:
            return f"{text} = {wanted[:120]} (not {said[:120]})"
    return "-- NOT TOLD APART"


def main():
    files = [a for a in sys.argv[1:] if os.path.exists(a)]
    only = [a for a in sys.argv[1:] if not os.path.exists(a)]
    cases = cases_of(files)
    begin = int(os.environ.get("FROM", "0"))
    for name, pairs in M[begin:]:
        if not only or any(o in name for o in only):
            print(f"{name} -> {one(name, pairs, cases)}", flush=True)


if __name__ == "__main__":
    sys.setrecursionlimit(100000)
    threading.stack_size(512 * 1024 * 1024)
    thread = threading.Thread(target=main)
    thread.start()
    thread.join()

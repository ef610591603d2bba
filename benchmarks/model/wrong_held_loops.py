"""Wrong models over the cases of held_loop_cases.py: wrong_held_loops.py STDOUT  (each is a replacement in model.py; told is how many cases see it, and in how many groups)

Before them stands the rule of the machine's own definitions, which keeps a loop only where its value may be held: no case may see it.
With "--all" as a second word, that rule alone is asked, over each line of STDOUT.
"""
import json
import sys
import model

SOURCE = open(model.__file__, encoding="utf-8").read()
# loops know their number, and whether they have their variable; and a place where one is closed, by its end or by a fault
BASE = (
    "        self.loops.append(LoopRec(items, depth, home))\n", "        self.loops.append(LoopRec(items, depth, home))\n        self.loops[-1].number, self.loops[-1].variable, self.loops[-1].gone, self.loops[-1].called = len(self.loops) - 1, variable, False, self.again\n        self.again = False\n",
    "        self.loops = []\n", "        self.loops = []\n        self.held = self.spaced = self.noted = self.enclosed = 0\n        self.again = False\n",
    "            self.heights = self.heights[:-1]\n            self.frames.pop()\n", "            self.heights = self.heights[:-1]\n            self.frames.pop()\n            self.closed(l, isinstance(sys.exc_info()[1], Fault))\n",
    "        again = self.opened(items, True, l.home)\n", "        self.again = 'named' if named else 'printed'\n        again = self.opened(items, True, l.home)\n",
    "        return self.loops[v.number]\n", "        if self.loops[v.number].gone:\n            raise Fault('InvalidOperation')\n        return self.loops[v.number]\n",
    # what was put somewhere: how many loops had been opened then
    "        self.namespaces.append(pairs)\n", "        self.namespaces.append(pairs)\n        self.holds('spaced', [v for _, v in pairs])\n",
    "            pairs.sort(key=lambda p: Key(p[0]))\n        else:\n", "            pairs.sort(key=lambda p: Key(p[0]))\n            self.holds('spaced', [v])\n        else:\n",
    "                self.closures[top.writes][target[1]] = v\n", "                self.closures[top.writes][target[1]] = v\n                self.holds('enclosed', [v])\n",
    "            held[name] = self.lookup(name) if self.knows(name) else UNDEF\n", "            held[name] = self.lookup(name) if self.knows(name) else UNDEF\n            self.holds('enclosed', [held[name]])\n",
    "        for n, v in temps:\n            self.temps[n] = v\n", "        for n, v in temps:\n            self.temps[n] = v\n        self.holds('noted', [v for _, v in temps])\n",
    "    def open_loop(self, v, variable, home=None):\n", "    def holds(self, where, vs):\n        if any(isinstance(v, (LoopV, Seq, Pairs)) for v in vs):\n            setattr(self, where, len(self.loops))\n            self.held = len(self.loops)\n\n    def closed(self, l, failed):\n        @@\n\n    def open_loop(self, v, variable, home=None):\n",
)


def closing(text, *more):
    return tuple(x.replace("@@", text) for x in BASE) + more


OWN = closing("l.gone = not l.variable or l.number >= self.held")
MUTANTS = {
    "a held loop is forgotten at a fault": closing("l.gone = failed"),
    "what `changed` was called with is forgotten at a fault": closing("l.changed = None if failed else l.changed"),
    "what `changed` was called with is forgotten where a loop is closed": closing("l.changed = None"),
    "a fault forgets what `changed` was called with for every loop": closing("for x in self.loops if failed else (): x.changed = None"),
    "what `changed` was called with goes to the loop of before": closing("if failed and l.number: self.loops[l.number - 1].changed = l.changed"),
    "behind a fault a loop is behind its last item": closing("l.asked = len(l.items) + 1 if failed else l.asked"),
    "behind a fault a loop is before its first item": closing("l.asked = 0 if failed else l.asked"),
    "behind a fault a loop is at the item of before": closing("l.asked = l.asked - 1 if failed else l.asked"),
    "behind a fault a loop has the items up to its own": closing("l.items = l.items[:l.asked] if failed else l.items"),
    "behind a fault the depth is 0": closing("l.depth = 0 if failed else l.depth"),
    "behind a fault no loop is called": closing("l.home = None if failed else l.home"),
    "only the innermost loop that failed is kept": closing("l.gone = failed and getattr(sys.exc_info()[1], 'met', False)\n        if failed: sys.exc_info()[1].met = True"),
    "only the outermost loop that failed is kept": closing("l.gone = failed and any(f.loop is not None and f.variable for f in self.frames)"),
    "the loop that was opened last is kept by nothing": closing("l.gone = not l.variable or l.number + 1 >= self.held"),
    "namespaces keep no loop": closing("l.gone = not l.variable or l.number >= max(self.enclosed, self.noted)"),
    "closures keep no loop": closing("l.gone = not l.variable or l.number >= max(self.spaced, self.noted)"),
    "temps keep no loop": closing("l.gone = not l.variable or l.number >= max(self.spaced, self.enclosed)"),
    "at a fault closures keep no loop": closing("l.gone = failed and l.number >= max(self.spaced, self.noted)"),
    "at a fault temps keep no loop": closing("l.gone = failed and l.number >= max(self.spaced, self.enclosed)"),
    "lists and maps keep no loop": closing("l.gone = not l.variable or l.number >= self.held", "        if any(isinstance(v, (LoopV, Seq, Pairs)) for v in vs):\n            setattr", "        if any(isinstance(v, LoopV) for v in vs):\n            setattr"),
    "modules keep no loop": closing("l.gone = not l.variable or l.number >= self.held", "        if any(isinstance(v, (LoopV, Seq, Pairs)) for v in vs):\n            setattr", "        if any(isinstance(v, (LoopV, Seq, Map, Kw)) for v in vs):\n            setattr"),
    "what a loop's own round put there keeps it alone": closing("l.gone = failed and self.held != l.number + 1"),
    "rounds that were called are forgotten": closing("l.gone = bool(l.called)"),
    "rounds that were called are forgotten at a fault": closing("l.gone = bool(l.called) and failed"),
    "rounds that were called by a name are forgotten at their end": closing("l.gone = l.called == 'named' and not failed"),
    "rounds that were printed are forgotten at their end": closing("l.gone = l.called == 'printed' and not failed"),
    "what `changed` was called with in rounds is forgotten at their end": closing("l.changed = None if l.called else l.changed"),
    "loops of macros that fail are forgotten": closing("l.gone = failed and len(self.frames) > 1 and self.outer > 0 and self.frames[1].reads is not None"),
    "loops of includes that fail are forgotten": closing("l.gone = failed and 'BadInclude' in self.wraps"),
    "loops of `super()` that fail are forgotten": closing("l.gone = failed and 'EvalBlock' in self.wraps"),
    "a loop that nothing holds gives its number back": closing("if failed and l.number >= self.held: del self.loops[l.number:]"),
    "a loop that failed gives its number back": closing("if failed: del self.loops[l.number:]"),
    "a loop with a condition that fails gives its number back": closing("pass", "                self.charge()\n        finally:\n            self.frames.pop()\n        self.charge()\n        return Lst(kept)", "                self.charge()\n        except Fault:\n            self.loops.pop()\n            raise\n        finally:\n            self.frames.pop()\n        self.charge()\n        return Lst(kept)"),
    "a loop that is refused takes a number": closing("pass", "        return self.opened(self.iterated(v), variable, home)\n", "        try:\n            items = self.iterated(v)\n        except Fault:\n            self.loops.append(None)\n            raise\n        return self.opened(items, variable, home)\n"),
    "a number alone makes a loop known": closing("pass", "        if v.state != self.id or v.number >= len(self.loops):\n", "        if v.number >= len(self.loops):\n"),
    "a fault behind a loop forgets it": closing("pass", "        except Fault as f:\n            end = f.kinds\n        run.budget = None\n", "        except Fault as f:\n            end = f.kinds\n            for l in run.loops[was:]: l.gone = True\n        run.budget = None\n", "        begun = len(run.trace)\n        value", "        was = len(run.loops)\n        begun = len(run.trace)\n        value"),
}


def wrong_of(name, pairs):
    text = SOURCE
    for old, new in zip(pairs[::2], pairs[1::2]):
        assert text.count(old) == 1, (name, text.count(old), old)
        text = text.replace(old, new)
    wrong = {"__name__": "wrong"}
    exec(compile("import sys\n" + text, name, "exec"), wrong)
    return wrong["answer"]


def told(answer, cases, name):
    groups, count = set(), 0
    for n, (heading, case, said) in enumerate(cases):
        try:
            got = answer(json.loads(json.dumps(case)))
        except Exception as e:  # a model that breaks is seen too
            got = repr(e)
        if got != said:
            count += 1
            groups.add(heading)
            yield n, got
    print(f"{count:4} cases in {len(groups):2} groups: {name}", flush=True)


def main():
    decoder, cases, heading = json.JSONDecoder(), [], None
    for l in open(sys.argv[1], encoding="utf-8").read().split("\n"):
        if l.startswith("#"):
            heading = l
        elif l:
            try:
                case, at = decoder.raw_decode(l)
            except ValueError:
                continue
            if "s" not in case:
                cases.append((heading, case, l[at + 3:]))
    if "--all" in sys.argv[2:]:
        right = wrong_of("own", ())
        cases = [(h, c, s) for h, c, s in cases if ran(right, c) == s]
        print(len(cases), "that the model tells alike")
    for n, got in told(wrong_of("own", OWN), cases, "the rule of the machine's own definitions, which no case may see"):
        print(json.dumps(cases[n][1])[:400], "\n   said", cases[n][2][-200:], "\n   got ", got[-200:])
    if "--all" in sys.argv[2:]:
        return
    seen = {}
    for name, pairs in MUTANTS.items():
        for n, _ in told(wrong_of(name, pairs), cases, name):
            seen.setdefault(n, []).append(name)
    print("cases that see no wrong model:", len(cases) - len(seen))
    if "-v" in sys.argv[2:]:
        for n, (heading, case, said) in enumerate(cases):
            if n not in seen:
                print(heading[:40], json.dumps(case)[:360])


def ran(answer, case):
    try:
        return answer(json.loads(json.dumps(case)))
    except Exception as e:
        return repr(e)


if __name__ == "__main__":
    model.threaded(main)

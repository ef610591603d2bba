"""Wrong models over the cases of failed_call_cases.py: wrong_failed_calls.py STDOUT  (each is a replacement in model.py; told is how many cases see it, and in how many groups)"""
import json
import sys
import model

SOURCE = open(model.__file__, encoding="utf-8").read()
BACK = '''            for n, v in kept.items():
                setattr(self, n, v)
            del self.frames[frames:]
            del self.captures[captures:]
'''
FAULT = '''        except Fault as f:
            if not wrap or is_want(f.kinds):
                raise
            raise Fault(wrap, *f.kinds)
'''


def within(*lines):
    """A run within that ends with a fault leaves more: what stands behind it puts only these back."""
    return (FAULT, '''        except Fault as f:
            self.faulty = True
            if not wrap or is_want(f.kinds):
                raise
            raise Fault(wrap, *f.kinds)
''', BACK, "            faulty, self.faulty = getattr(self, 'faulty', False), False\n" + "".join("            " + l + "\n" for l in lines))


ALL = "for n, v in kept.items(): setattr(self, n, v)"
FR, CA = "del self.frames[frames:]", "del self.captures[captures:]"


def keep(name):
    return within("for n, v in kept.items():\n                if not (faulty and n == '%s'): setattr(self, n, v)" % name, FR, CA)


MUTANTS = {
    "a cut leaves 1": ("consumed = fuel if run.is_cut else consumed + taken", "consumed = max(fuel - 1, consumed) if run.is_cut else consumed + taken"),
    "a cut consumes nothing": ("consumed = fuel if run.is_cut else consumed + taken", "consumed = consumed if run.is_cut else consumed + taken"),
    "a fault consumes all": ("consumed = fuel if run.is_cut else consumed + taken", "consumed = fuel if run.is_cut or (end and fuel is not None) else consumed + taken"),
    "a fault consumes nothing": ("consumed = fuel if run.is_cut else consumed + taken", "consumed = fuel if run.is_cut else consumed + (0 if end else taken)"),
    "OutOfFuel is a cut": ("consumed = fuel if run.is_cut else consumed + taken", "consumed = fuel if fuel is not None and end and end[-1] == 'OutOfFuel' else consumed + taken"),
    "OutOfFuel alone is a cut": ("consumed = fuel if run.is_cut else consumed + taken", "consumed = fuel if run.is_cut or fuel is not None and end == ['OutOfFuel'] else consumed + taken"),
    "nothing is done without fuel": ("        try:\n            _, value = call_told(", "        try:\n            if fuel is not None and fuel == consumed and ('render_block' in call or 'call_macro' in call):\n                raise Fault('OutOfFuel')\n            _, value = call_told("),
    "a further call's steps cost nothing": ("run.budget, run.spent, run.is_cut = None if fuel is None else fuel - consumed, 0, False", "run.budget, run.spent, run.is_cut = None if fuel is None or 'apply_filter' in call else fuel - consumed, 0, False"),
    "captures stay behind a fault": within(ALL, FR, "if not faulty: " + CA),
    "the innermost capture alone goes": within(ALL, FR, "if faulty: del self.captures[max(captures, len(self.captures) - 1):]\n            else: " + CA),
    "frames stay behind a fault": within(ALL, "if not faulty: " + FR, CA),
    "the innermost frame alone goes": within(ALL, "if faulty: del self.frames[max(frames, len(self.frames) - 1):]\n            else: " + FR, CA),
    "the escape stays": keep("escape"), "the block stays": keep("block"), "the name stays": keep("name"), "the outer depth stays": keep("outer"),
    "the place of super stays": ("            entry[1] = place\n            del self.captures[height:]", "            if not sys.exc_info()[0]: entry[1] = place\n            del self.captures[height:]"),
    "a failed macro keeps what was loaded": ("            del self.loaded[loaded:]\n            for n in list(self.blocks):", "            for n in list(self.blocks) if not sys.exc_info()[0] else (): pass\n            if not sys.exc_info()[0]: del self.loaded[loaded:]\n            for n in list(self.blocks) if not sys.exc_info()[0] else ():"),
    "a failed macro keeps the loaded names": ("            del self.loaded[loaded:]\n            for n in list(self.blocks):", "            if not sys.exc_info()[0]: del self.loaded[loaded:]\n            for n in list(self.blocks):"),
    "a failed macro keeps the bodies": ("            del self.loaded[loaded:]\n            for n in list(self.blocks):", "            del self.loaded[loaded:]\n            for n in list(self.blocks) if not sys.exc_info()[0] else ():"),
    "a failed include keeps what was loaded": ("            self.blocks = blocks\n            del self.loaded[loaded:]", "            blocks.update(self.blocks if sys.exc_info()[0] else {})\n            self.blocks = blocks\n            if not sys.exc_info()[0]: del self.loaded[loaded:]"),
    "a failed include keeps the loaded names": ("            self.blocks = blocks\n            del self.loaded[loaded:]", "            self.blocks = blocks\n            if not sys.exc_info()[0]: del self.loaded[loaded:]"),
    "a failed call on a state puts back what was loaded": ("        except Fault as f:\n            end = f.kinds\n        run.budget = None\n", "        except Fault as f:\n            end = f.kinds\n            del run.loaded[was[0]:]\n            for n in list(run.blocks):\n                if n in was[1]: del run.blocks[n][0][was[1][n]:]\n                else: del run.blocks[n]\n        run.budget = None\n", "        begun = len(run.trace)\n        value", "        was = len(run.loaded), {n: len(x[0]) for n, x in run.blocks.items()}\n        begun = len(run.trace)\n        value"),
    "a failed call puts temps back": ("        except Fault as f:\n            end = f.kinds\n        run.budget = None\n", "        except Fault as f:\n            end = f.kinds\n            run.temps = was\n        run.budget = None\n", "        begun = len(run.trace)\n        value", "        was = dict(run.temps)\n        begun = len(run.trace)\n        value"),
    "a failed call puts namespaces back": ("        except Fault as f:\n            end = f.kinds\n        run.budget = None\n", "        except Fault as f:\n            end = f.kinds\n            run.namespaces[:] = was\n        run.budget = None\n", "        begun = len(run.trace)\n        value", "        was = [list(n) for n in run.namespaces]\n        begun = len(run.trace)\n        value"),
    "a failed call puts closures back": ("        except Fault as f:\n            end = f.kinds\n        run.budget = None\n", "        except Fault as f:\n            end = f.kinds\n            for c in run.closures[len(was):]: c.clear()\n            run.closures[:len(was)] = was\n        run.budget = None\n", "        begun = len(run.trace)\n        value", "        was = [dict(n) for n in run.closures]\n        begun = len(run.trace)\n        value"),
    "a failed call puts loops back": ("        except Fault as f:\n            end = f.kinds\n        run.budget = None\n", "        except Fault as f:\n            end = f.kinds\n            for l, (a, c) in zip(run.loops, was): l.asked, l.changed = a, c\n            for l in run.loops[len(was):]: l.asked = 0\n        run.budget = None\n", "        begun = len(run.trace)\n        value", "        was = [(l.asked, l.changed) for l in run.loops]\n        begun = len(run.trace)\n        value"),
    "a further call's depth stays": ("            return self.lookup(asked[1]) if self.knows(asked[1]) else UNDEF\n        finally:\n            self.outer -= 1", "            return self.lookup(asked[1]) if self.knows(asked[1]) else UNDEF\n        finally:\n            if not sys.exc_info()[0]: self.outer -= 1"),
    "a failed macro keeps the depth": ("            for n, v in kept.items():\n                setattr(self, n, v)\n            del self.captures[height:]", "            for n, v in kept.items():\n                if not (n == 'outer' and sys.exc_info()[0]): setattr(self, n, v)\n            del self.captures[height:]"),
    "a failed macro keeps its frames": ("            for n, v in kept.items():\n                setattr(self, n, v)\n            del self.captures[height:]", "            for n, v in kept.items():\n                if not (n == 'frames' and sys.exc_info()[0]): setattr(self, n, v)\n            del self.captures[height:]"),
    "a failed macro keeps the escape": ("            for n, v in kept.items():\n                setattr(self, n, v)\n            del self.captures[height:]", "            for n, v in kept.items():\n                if not (n == 'escape' and sys.exc_info()[0]): setattr(self, n, v)\n            del self.captures[height:]", '        old = self.escape\n            self.escape = self.chosen(v)\n            try:\n                self.body(s[2])\n            finally:\n                self.escape = old', '        old = self.escape\n            self.escape = self.chosen(v)\n            self.body(s[2])\n            self.escape = old'),
    "a failed macro keeps the name": ("            for n, v in kept.items():\n                setattr(self, n, v)\n            del self.captures[height:]", "            for n, v in kept.items():\n                if not (n == 'name' and sys.exc_info()[0]): setattr(self, n, v)\n            del self.captures[height:]"),
    "a failed macro keeps its captures": ("            for n, v in kept.items():\n                setattr(self, n, v)\n            del self.captures[height:]", "            for n, v in kept.items():\n                setattr(self, n, v)\n            if not sys.exc_info()[0]: del self.captures[height:]"),
    "the escape of autoescape stays in rounds and blocks": (ALL if False else '                self.body(s[2])\n            finally:\n                self.escape = old', '                self.body(s[2])\n            finally:\n                if not sys.exc_info()[0]: self.escape = old', 'kept = {n: getattr(self, n) for n in ("name", "block", "parent", "outer", "escape", "first", "open", "heights")}', 'kept = {n: getattr(self, n) for n in ("name", "block", "parent", "outer", "first", "open", "heights")}', "        finally:\n            self.blocks = blocks\n", "        finally:\n            self.escape = was\n            self.blocks = blocks\n", "        writes, top.writes = top.writes, None\n", "        writes, top.writes = top.writes, None\n        was = self.escape\n"),
    "rounds by name leave a capture": ("        try:\n            self.each(again, statement)\n        finally:\n            self.name = name\n", "        try:\n            self.each(again, statement)\n        except Fault:\n            self.leak = True\n            raise\n        finally:\n            self.name = name\n", CA + "\n", CA + "\n            if getattr(self, 'leak', False): self.captures.append([]); self.leak = False\n"),
    "rounds by name leave a discard": ("        try:\n            self.each(again, statement)\n        finally:\n            self.name = name\n", "        try:\n            self.each(again, statement)\n        except Fault:\n            self.leak = True\n            raise\n        finally:\n            self.name = name\n", CA + "\n", CA + "\n            if getattr(self, 'leak', False): self.captures.append(None); self.leak = False\n"),
    "rounds by name pop one capture too many in macros": ("        try:\n            self.each(again, statement)\n        finally:\n            self.name = name\n", "        try:\n            self.each(again, statement)\n        except Fault:\n            self.leak = True\n            raise\n        finally:\n            self.name = name\n", "            del self.captures[height:]\n            del self.loaded[loaded:]\n", "            del self.captures[height:]\n            if getattr(self, 'leak', False): self.captures.append([]); self.leak = False\n            del self.loaded[loaded:]\n"),
    "rounds leave their frame": ("        finally:\n            self.heights = self.heights[:-1]\n            self.frames.pop()\n", "        finally:\n            self.heights = self.heights[:-1]\n            self.left = self.frames.pop() if sys.exc_info()[0] else self.frames.pop() and None\n", BACK, BACK + "            if getattr(self, 'left', None): self.frames.append(self.left); self.left = None\n"),
    "rounds leave the name of their template": ("        finally:\n            self.name = name\n        return self.end_capture() if named else None", "        except Fault:\n            self.lost = home\n            raise\n        finally:\n            self.name = name\n        return self.end_capture() if named else None", BACK, BACK + "            if getattr(self, 'lost', None): self.name, self.lost = self.lost, None\n"),
    "a loop is called by a further call": ("        if isinstance(f, MacroV):\n            return self.macro_call(", "        if isinstance(f, LoopV) and vs:\n            return self.rounds(self.loop_of(f), vs[0], True)\n        if isinstance(f, MacroV):\n            return self.macro_call("),
    "a cut goes unwrapped": ("                self.is_cut = True\n                raise Fault(\"OutOfFuel\")", "                self.is_cut = True\n                raise Fault(\"OutOfFuel\")", "            raise Fault(wrap, *f.kinds)", "            raise Fault(*([] if self.is_cut else [wrap]), *f.kinds)", "        assert told == end, (told, end)\n", ""),
    "one step more runs": ("            if self.spent >= self.budget:", "            if self.spent > self.budget:", "        assert told == end, (told, end)\n", "", "        assert run.is_cut == (fuel is not None and taken > 0 and taken >= fuel - consumed), (run.is_cut, taken)\n", ""),
    "the run goes on behind the cut": ("                self.is_cut = True\n                raise Fault(\"OutOfFuel\")", "                self.is_cut = True", "        assert told == end, (told, end)\n", "        end = told\n"),
    "a fault in a print of a macro's value consumes the rest": ("        return printed(self.called(self.lookup(name), list(vs)), self)", "        v = self.called(self.lookup(name), list(vs))\n        try:\n            return printed(v, self)\n        except Fault:\n            if self.budget is not None: self.is_cut = True\n            raise", "        assert run.is_cut == (fuel is not None and taken > 0 and taken >= fuel - consumed), (run.is_cut, taken)\n", ""),
}


def main():
    decoder, cases, heading = json.JSONDecoder(), [], None
    for l in open(sys.argv[1], encoding="utf-8").read().split("\n"):
        if l.startswith("#"):
            heading = l
        elif l:
            case, at = decoder.raw_decode(l)
            if "s" not in case:
                cases.append((heading, case, l[at + 3:]))
    seen = {}
    skipped = set(sys.argv[2].split(";")) if len(sys.argv) > 2 else set()
    for name, pairs in MUTANTS.items():
        if name in skipped:
            continue
        text = SOURCE
        for old, new in zip(pairs[::2], pairs[1::2]):
            assert text.count(old) == 1, (name, text.count(old), old)
            text = text.replace(old, new)
        wrong = {"__name__": "wrong"}
        exec(compile("import sys\n" + text, name, "exec"), wrong)
        groups, count = set(), 0
        for n, (heading, case, said) in enumerate(cases):
            try:
                got = wrong["answer"](json.loads(json.dumps(case)))
            except Exception as e:  # a model that breaks is seen too
                got = repr(e)
            if got != said:
                count += 1
                groups.add(heading)
                seen.setdefault(n, []).append(name)
        print(f"{count:4} cases in {len(groups):2} groups: {name}", flush=True)
    print("cases that see no wrong model:", len(cases) - len(seen))
    if "-v" in sys.argv[3:]:
        for n, (heading, case, said) in enumerate(cases):
            if n not in seen:
                print(heading[:40], json.dumps(case)[:260])


if __name__ == "__main__":
    model.threaded(main)

"""Wrong models over the cases of stated_kind_cases.py: wrong_stated_kinds.py STDOUT [-v]  (each is replacements in model.py; told is how many cases see it, and in how many groups)"""
import json
import sys
import model
from wrong_held_loops import told

SOURCE = open(model.__file__, encoding="utf-8").read()
THREE = '("OutOfMemory", "WriteFailure", "BadStream")'
# the rule of before: what is told in the place of a stated fault
OLD = f"(lambda ks: ks if ks == ['OutOfMemory'] or not any(k in {THREE} for k in ks) else ['InvalidOperation'])"
HEARD = "            raise Fault(*f.kinds)\n        for n, v in temps:\n"
PRINTED = "            raise Fault(*f.kinds)\n        if how == \"done\" and is_text(answer):\n"
JOINED = "            raise Fault(*stated.kinds)\n"
WANT = '    return kinds == ["OutOfMemory"]\n'
WITHIN = "            if not wrap or is_want(f.kinds):\n"


def want(text):
    return (WANT, f"    return {text}\n")


def heard(text):
    """What is told of each stated fault, where `ks` are its kinds."""
    return (HEARD, HEARD.replace("*f.kinds", f"*(lambda ks: {text})(f.kinds)"), PRINTED, PRINTED.replace("*f.kinds", f"*(lambda ks: {text})(f.kinds)"), JOINED, JOINED.replace("*stated.kinds", f"*(lambda ks: {text})(stated.kinds)"))


def through(head, body, then):
    """Where a fault comes out of a call: `then` says what is told for `ks`."""
    return (head + body, head + "        try:\n" + body.replace("        ", "            ", 1) + f"        except Fault as f:\n            raise Fault(*(lambda ks: {then})(f.kinds))\n")


def by_old(old, new=None):
    return (old, (new or old).replace("*f.kinds", f"*{OLD}(f.kinds)").replace("*stated.kinds", f"*{OLD}(stated.kinds)"))


def carrier(name, head, call):
    """A carrier whose kinds are told by the rule of before."""
    return (head + call, head + f"        try:\n            {call.strip()}\n        except Fault as f:\n            if getattr(f, 'stated', False):\n                f.kinds = {OLD}(f.kinds)\n            raise\n",
            HEARD, HEARD.replace("raise Fault(*f.kinds)", "told = Fault(*f.kinds)\n            told.stated = True\n            raise told"))


AT_STATE = "        except Fault as f:\n            end = f.kinds\n        run.budget = None\n"


def at_state(word):
    """A call on a state tells its fault by the rule of before."""
    return (AT_STATE, f"        except Fault as f:\n            end = {OLD}(f.kinds) if '{word}' in call else f.kinds\n        run.budget = None\n", "        assert told == end, (told, end)\n", "")


def behind(what):
    return (AT_STATE, f"        except Fault as f:\n            end = f.kinds\n            {what}\n        run.budget = None\n")


MUTANTS = {
    "a stated fault of the machine's own kinds is told as InvalidOperation": heard(f"{OLD}(ks)"),
    "one of several kinds is": heard(f"{OLD}(ks) if len(ks) > 1 else ks"),
    "one that begins with such a kind is": heard(f"['InvalidOperation'] if ks[0] in {THREE} and ks != ['OutOfMemory'] else ks"),
    "one that ends with such a kind is": heard(f"['InvalidOperation'] if ks[-1] in {THREE} and ks != ['OutOfMemory'] else ks"),
    "such a kind becomes InvalidOperation where it stands": heard(f"[k if ks == ['OutOfMemory'] or k not in {THREE} else 'InvalidOperation' for k in ks]"),
    "WriteFailure is told as InvalidOperation": heard("['InvalidOperation'] if 'WriteFailure' in ks else ks"),
    "BadStream is told as InvalidOperation": heard("['InvalidOperation'] if 'BadStream' in ks else ks"),
    "OutOfMemory alone is told as InvalidOperation": heard("['InvalidOperation'] if ks == ['OutOfMemory'] else ks"),
    "OutOfMemory with others is told as InvalidOperation": heard("['InvalidOperation'] if len(ks) > 1 and 'OutOfMemory' in ks else ks"),
    "OutOfMemory with others is told as OutOfMemory": heard("['OutOfMemory'] if 'OutOfMemory' in ks else ks"),
    "OutOfMemory as a cause is told as OutOfMemory": heard("['OutOfMemory'] if ks[-1] == 'OutOfMemory' else ks"),
    "OutOfMemory with a cause is told as OutOfMemory": heard("['OutOfMemory'] if ks[0] == 'OutOfMemory' else ks"),
    "causes are dropped": heard("ks[:1]"),
    "the outermost kind is dropped": heard("ks[-1:]"),
    "the outermost kind alone says what is wrapped": want(f"kinds[0] in {THREE}"),
    "memory's and the sink's as the outermost kind are not wrapped": want("kinds[0] in ('OutOfMemory', 'WriteFailure')"),
    "OutOfMemory as the outermost kind is not wrapped": want("kinds[0] == 'OutOfMemory'"),
    "WriteFailure as the outermost kind is not wrapped": want("kinds == ['OutOfMemory'] or kinds[0] == 'WriteFailure'"),
    "BadStream as the outermost kind is not wrapped": want("kinds == ['OutOfMemory'] or kinds[0] == 'BadStream'"),
    "each of the three alone is not wrapped": want(f"len(kinds) == 1 and kinds[0] in {THREE}"),
    "WriteFailure alone is not wrapped": want("kinds in (['OutOfMemory'], ['WriteFailure'])"),
    "BadStream alone is not wrapped": want("kinds in (['OutOfMemory'], ['BadStream'])"),
    "any kind in the chain says it": want(f"any(k in {THREE} for k in kinds)"),
    "OutOfMemory anywhere in the chain says it": want("'OutOfMemory' in kinds"),
    "WriteFailure anywhere in the chain says it": want("kinds == ['OutOfMemory'] or 'WriteFailure' in kinds"),
    "BadStream anywhere in the chain says it": want("kinds == ['OutOfMemory'] or 'BadStream' in kinds"),
    "the innermost kind says it": want(f"kinds[-1] in {THREE}"),
    "OutOfMemory as the innermost kind says it": want("kinds[-1] == 'OutOfMemory'"),
    "OutOfMemory behind wraps alone says it": want("kinds[-1] == 'OutOfMemory' and all(k in ('BadInclude', 'EvalBlock') for k in kinds[:-1])"),
    "OutOfMemory twice says it": want("set(kinds) == {'OutOfMemory'}"),
    "OutOfMemory alone is wrapped": want("False"),
    "OutOfMemory alone is wrapped by includes": (WITHIN, "            if not wrap or is_want(f.kinds) and wrap != 'BadInclude':\n"),
    "OutOfMemory alone is wrapped by `super()`": (WITHIN, "            if not wrap or is_want(f.kinds) and wrap != 'EvalBlock':\n"),
    "includes go by the outermost kind": (WITHIN, f"            if not wrap or is_want(f.kinds) or wrap == 'BadInclude' and f.kinds[0] in {THREE}:\n"),
    "`super()` goes by the outermost kind": (WITHIN, f"            if not wrap or is_want(f.kinds) or wrap == 'EvalBlock' and f.kinds[0] in {THREE}:\n"),
    "within two wraps the outer one is left out": (WITHIN, f"            if not wrap or is_want(f.kinds) or f.kinds[1:2] and f.kinds[1] in {THREE} and f.kinds[0] in ('BadInclude', 'EvalBlock') and len(self.wraps) == 1:\n"),
    "a wrapped fault loses the causes behind a kind of the machine's": ("            raise Fault(wrap, *f.kinds)\n", f"            raise Fault(wrap, *(f.kinds[:1] if f.kinds[0] in {THREE} else f.kinds))\n"),
    "a wrap takes the place of a kind of the machine's": ("            raise Fault(wrap, *f.kinds)\n", f"            raise Fault(wrap, *(f.kinds[1:] if f.kinds[0] in {THREE} else f.kinds))\n"),
    "BadInclude is not doubled": ("            raise Fault(wrap, *f.kinds)\n", "            raise Fault(*([] if f.kinds[0] == wrap else [wrap]), *f.kinds)\n"),
    "a sink that fails is wrapped": ('            self.trace.append(("text", text))\n', '            self.trace.append(("text", text, tuple(self.wraps)))\n', '        end = ["WriteFailure"]\n', '''        at, end = 0, None
        for x in run.trace:
            if x[0] == "text":
                at += len(x[1].encode())
                if at > room:
                    end = list(x[2]) + ["WriteFailure"]
                    break
'''),
    "a stated WriteFailure ends the text before what stands last": ("    shown = \"_\" if room is None else quoted(text)\n", "    shown = \"_\" if room is None else quoted(text[:-1] if end and 'WriteFailure' in end and not (room and room >= 0) else text)\n"),
    "filters tell by the rule of before": carrier("filter", "            raise Fault(\"UnknownFilter\")\n", "        return self.invoked(self.filters[name], vs)\n"),
    "tests do": carrier("test", "            raise Fault(\"UnknownTest\")\n", "        return truth(self.invoked(self.tests[name], vs), self)\n"),
    "functions do": carrier("function", "        if f.number - FIRST_OWN >= len(self.functions):\n            raise Fault(\"InvalidOperation\")\n", "        return self.invoked(self.functions[f.number - FIRST_OWN], list(vs))\n"),
    "methods do": carrier("method", "            raise Fault(\"UnknownMethod\")\n", "        return self.invoked(self.unknown, [v, name] + list(vs))\n"),
    "formatters do": by_old(PRINTED),
    "joins do": by_old(JOINED),
    "formatters tell WriteFailure alone as a sink's, which no run wraps": (PRINTED, PRINTED.replace("raise Fault(*f.kinds)", "told = Fault(*f.kinds)\n            told.unwrapped = f.kinds == ['WriteFailure']\n            raise told"), WITHIN, "            if not wrap or is_want(f.kinds) or getattr(f, 'unwrapped', False):\n"),
    "a formatter's OutOfMemory is wrapped": (PRINTED, PRINTED.replace("raise Fault(*f.kinds)", "told = Fault(*f.kinds)\n            told.wrapped = True\n            raise told"), WITHIN, "            if not wrap or is_want(f.kinds) and not getattr(f, 'wrapped', False):\n"),
    "what a filter goes on with tells by the rule of before": ("        self.outer += 1\n        try:\n            if asked[0]", "        self.outer += 1\n        try:\n            return self.went(asked)\n        except Fault as f:\n            raise Fault(*" + OLD + "(f.kinds))\n        finally:\n            self.outer -= 1\n\n    def went(self, asked):\n        try:\n            if asked[0]", "            return self.lookup(asked[1]) if self.knows(asked[1]) else UNDEF\n        finally:\n            self.outer -= 1\n", "            return self.lookup(asked[1]) if self.knows(asked[1]) else UNDEF\n        finally:\n            pass\n"),
    "what is gone on with is wrapped by InvalidOperation": ("        self.outer += 1\n        try:\n            if asked[0]", "        self.outer += 1\n        try:\n            return self.went(asked)\n        except Fault as f:\n            if f.kinds[0] in " + THREE + " and not is_want(f.kinds):\n                raise Fault('InvalidOperation', *f.kinds)\n            raise\n        finally:\n            self.outer -= 1\n\n    def went(self, asked):\n        try:\n            if asked[0]", "            return self.lookup(asked[1]) if self.knows(asked[1]) else UNDEF\n        finally:\n            self.outer -= 1\n", "            return self.lookup(asked[1]) if self.knows(asked[1]) else UNDEF\n        finally:\n            pass\n"),
    "macros tell by the rule of before": ("                self.store((\"name\", name), v)\n            self.body(m.body)\n        finally:\n", "                self.store((\"name\", name), v)\n            self.body(m.body)\n        except Fault as f:\n            raise Fault(*" + OLD + "(f.kinds))\n        finally:\n"),
    "blocks tell by the rule of before": (WITHIN, "            if not wrap:\n                raise Fault(*" + OLD + "(f.kinds))\n            if is_want(f.kinds):\n"),
    "blocks wrap": ("        self.body_of(name, bodies[place], None)\n", "        self.body_of(name, bodies[place], 'EvalBlock')\n"),
    "rounds that are called again tell by the rule of before": ("        try:\n            self.each(again, statement)\n        finally:\n", "        try:\n            self.each(again, statement)\n        except Fault as f:\n            raise Fault(*" + OLD + "(f.kinds))\n        finally:\n"),
    "rounds that are called again wrap it in InvalidOperation, as items that are none": ("        try:\n            self.each(again, statement)\n        finally:\n", "        try:\n            self.each(again, statement)\n        except Fault as f:\n            raise Fault('InvalidOperation', *f.kinds) if 'OutOfFuel' not in f.kinds else f\n        finally:\n"),
    "captures tell by the rule of before": ("            self.body(body)\n        finally:\n            self.open -= 1\n", "            self.body(body)\n        except Fault as f:\n            raise Fault(*" + OLD + "(f.kinds))\n        finally:\n            self.open -= 1\n"),
    "`ignore missing` takes a stated TemplateNotFound for its own": ("                return self.include_in(name)\n", "                try:\n                    return self.include_in(name)\n                except Fault as f:\n                    if ignore and 'TemplateNotFound' in f.kinds:\n                        return None\n                    raise\n"),
    "`ignore missing` takes a kind of the machine's for one": ("                return self.include_in(name)\n", "                try:\n                    return self.include_in(name)\n                except Fault as f:\n                    if ignore and f.kinds[-1] in " + THREE + ":\n                        return None\n                    raise\n"),
    "`ignore missing` takes a join's fault for one": ("            name = self.joined(plain(c))\n            if name in self.templates:\n                return", "            try:\n                name = self.joined(plain(c))\n            except Fault:\n                if ignore:\n                    return None\n                raise\n            if name in self.templates:\n                return"),
    "a join that fails is a name that does not stand": ("            name = self.joined(plain(c))\n            if name in self.templates:\n                return", "            try:\n                name = self.joined(plain(c))\n            except Fault as f:\n                if is_want(f.kinds):\n                    raise\n                continue\n            if name in self.templates:\n                return"),
    "apply_filter tells by the rule of before": at_state("apply_filter"),
    "perform_test does": at_state("perform_test"),
    "call_macro does": at_state("call_macro"),
    "render_block does": at_state("render_block"),
    "format does": at_state("format"),
    "get_template does": at_state("get_template"),
    "a stated OutOfFuel takes all the fuel where it has a cause": (AT_STATE, "        except Fault as f:\n            end = f.kinds\n            if 'OutOfFuel' in end and fuel is not None and not run.is_cut:\n                run.trace.extend([('step', ())] * (fuel - consumed - (len(run.trace) - begun) - 1))\n        run.budget = None\n", "        assert run.is_cut == (fuel is not None and taken > 0 and taken >= fuel - consumed), (run.is_cut, taken)\n", ""),
    "a stated WriteFailure takes all the fuel": (AT_STATE, "        except Fault as f:\n            end = f.kinds\n            if 'WriteFailure' in end and fuel is not None:\n                run.is_cut = True\n        run.budget = None\n", "        assert run.is_cut == (fuel is not None and taken > 0 and taken >= fuel - consumed), (run.is_cut, taken)\n", ""),
    "a state that told WriteFailure tells it for ever": (AT_STATE, AT_STATE.replace("            end = f.kinds\n", "            end = f.kinds\n            run.dead = run.dead if hasattr(run, 'dead') else end if 'WriteFailure' in end else None\n        if getattr(run, 'dead', None):\n            end = run.dead\n"), "        assert told == end, (told, end)\n", ""),
    "a state that told BadStream tells it for ever": (AT_STATE, AT_STATE.replace("            end = f.kinds\n", "            end = f.kinds\n            run.dead = run.dead if hasattr(run, 'dead') else end if 'BadStream' in end else None\n        if getattr(run, 'dead', None):\n            end = run.dead\n"), "        assert told == end, (told, end)\n", ""),
    "a state that told OutOfMemory tells it for ever": (AT_STATE, AT_STATE.replace("            end = f.kinds\n", "            end = f.kinds\n            run.dead = run.dead if hasattr(run, 'dead') else end if is_want(end) else None\n        if getattr(run, 'dead', None):\n            end = run.dead\n"), "        assert told == end, (told, end)\n", ""),
    "a stated WriteFailure takes away what is among the temps": behind("if 'WriteFailure' in end: run.temps.clear()"),
    "a stated kind of the machine's takes away what is among the temps": behind(f"if any(k in {THREE} for k in end): run.temps.clear()"),
    "a stated kind of the machine's puts namespaces back": (AT_STATE, f"        except Fault as f:\n            end = f.kinds\n            if any(k in {THREE} for k in end): run.namespaces[:] = was\n        run.budget = None\n", "        begun = len(run.trace)\n        value", "        was = [list(n) for n in run.namespaces]\n        begun = len(run.trace)\n        value"),
    "what a fault's description sets is set": ("            raise Stated(*([operand] if isinstance(operand, str) else operand))\n        elif key in", "            for n, v in sets: TEMPS.temps[n] = v\n            raise Stated(*([operand] if isinstance(operand, str) else operand))\n        elif key in", "        view = View(self.name, self.escape, self.undefined, self.block, dict(self.temps))\n        try:\n            temps, how", "        global TEMPS\n        TEMPS = self\n        view = View(self.name, self.escape, self.undefined, self.block, dict(self.temps))\n        try:\n            temps, how"),
    "what was set before a callable goes on is not there where that fails": ("        for n, v in temps:\n            self.temps[n] = v\n        return answer if how == \"done\" else self.further(answer)\n", "        was = dict(self.temps)\n        for n, v in temps:\n            self.temps[n] = v\n        if how == 'done':\n            return answer\n        try:\n            return self.further(answer)\n        except Fault:\n            self.temps = was\n            raise\n"),
    "an expression tells by the rule of before": ("            value = frozen(run.eval(e), run, 500)\n        except Fault as f:\n            end = f.kinds\n", "            value = frozen(run.eval(e), run, 500)\n        except Fault as f:\n            end = " + OLD + "(f.kinds)\n"),
    "a text that is rendered tells by the rule of before": ('    if call == "render":\n        return "! " + ": ".join(end) if end', f'    if call == "render":\n        return "! " + ": ".join({OLD}(end)) if end'),
    "a text that is captured tells by the rule of before": ('    if call == "render_captured" and end:\n        return "! " + ": ".join(end)', f'    if call == "render_captured" and end:\n        return "! " + ": ".join({OLD}(end))'),
}


def wrong_of(name, pairs):
    text = SOURCE
    for old, new in zip(pairs[::2], pairs[1::2]):
        assert text.count(old) == 1, (name, text.count(old), old)
        text = text.replace(old, new)
    wrong = {"__name__": "wrong"}
    exec(compile("import sys\n" + text, name, "exec"), wrong)
    return wrong["answer"]


def main():
    decoder, cases, heading = json.JSONDecoder(), [], None
    for l in open(sys.argv[1], encoding="utf-8").read().split("\n"):
        if l.startswith("#"):
            heading = l
        elif l:
            case, at = decoder.raw_decode(l)
            if "s" not in case:
                cases.append((heading, case, l[at + 3:]))
    seen = {}
    for name, pairs in MUTANTS.items():
        for n, _ in told(wrong_of(name, pairs), cases, name):
            seen.setdefault(n, []).append(name)
    print(len(MUTANTS), "wrong models; cases that see none of them:", len(cases) - len(seen))
    if "-v" in sys.argv[2:]:
        for n, (heading, case, said) in enumerate(cases):
            if n not in seen:
                print(heading[:40], json.dumps(case)[:360])
    if "-m" in sys.argv[2:]:  # the fewest cases that tell all apart, greedily
        left, kept = {name for names in seen.values() for name in names}, []
        while left:
            n = max(seen, key=lambda n: len(left & set(seen[n])))
            kept.append(n)
            left -= set(seen[n])
        print(len(kept), "cases would do")


if __name__ == "__main__":
    model.threaded(main)

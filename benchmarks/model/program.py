"""The model as the program of the worked rows: run "python3 program.py"."""
import json
import sys
import model


class Stop(Exception):
    def __init__(self, fault, status, text=""):
        self.fault, self.status, self.text = fault, status, text


def words_of(words):
    if not words or words[0] not in ("render", "names"):
        raise Stop(None, 0 if words and words[0] in ("help", "-h", "--help") else 2)
    command, words = words[0], words[1:]
    known = ("--main",) if command == "names" else ("--context", "--fuel", "--limit", "--undefined", "--main")
    options, texts, files = {}, [], []
    while words:
        w = words.pop(0)
        if w in ("-h", "--help"):
            raise Stop(None, 0)
        if w.startswith("--") and "=" in w:
            w, rest = w.split("=", 1)
            words.insert(0, rest)
        if command == "render" and w.startswith("-D"):
            texts.append(w[2:] if len(w) > 2 else words.pop(0))
        elif w.startswith("-") and w != "-":
            if w not in known or w in options or not words:
                raise Stop(None, 2)
            options[w] = words.pop(0)
        else:
            files.append(w)
    return command, options, texts, files


def has_float(v):
    if isinstance(v, float):
        return True
    if isinstance(v, int) and not isinstance(v, bool):
        return not -(1 << 63) <= v < 1 << 64
    if isinstance(v, list):
        return any(has_float(x) for x in v)
    return isinstance(v, dict) and any(has_float(x) for x in v.values())


def ran(words, stdin):
    command, options, texts, files = words_of(words)
    if any("=" not in t for t in texts):
        raise Stop("Arguments", 2)
    try:
        limit = int(options.get("--limit", 500))
        fuel = int(options["--fuel"]) if "--fuel" in options else None
    except ValueError:
        raise Stop(None, 2)
    mode = {"lenient": "lenient", "chainable": "chainable", "semistrict": "semi_strict", "strict": "strict"}.get(options.get("--undefined", "lenient"))
    if not 0 <= limit <= 65535 or mode is None or (fuel is not None and not 0 <= fuel < 1 << 64):
        raise Stop(None, 2)
    try:
        sources = [[f, open(f, "rb").read().decode()] for f in files] or [["<stdin>", stdin.decode()]]
        context = open(options["--context"], "rb").read() if "--context" in options else b"{}"
    except (OSError, UnicodeDecodeError):
        raise Stop("File", 3)
    try:
        context = json.loads(context)
    except (ValueError, UnicodeDecodeError):
        raise Stop("SyntaxError", 4)
    if has_float(context):
        raise Stop("NoFloats", 4)
    if not isinstance(context, dict):
        raise Stop("InvalidOperation", 4)
    for t in texts:
        name, text = t.split("=", 1)
        context[name] = text
    main = options.get("--main", sources[0][0])
    case = {"templates": sources, "main": main, "context": context, "limit": limit, "undefined": mode}
    environment = model.Environment(case)
    said, goes_on = environment.take(case)
    if not goes_on:
        raise Stop(said.rsplit(" ", 1)[1], 5)
    if main not in environment.templates:
        raise Stop("TemplateNotFound", 5)
    if command == "names":
        names = model.answer(dict(case, names=True))[1:-1].split(", ")
        raise Stop(None, 0, "".join(n + "\n" for n in names))
    environment.ids += 1
    body, escape = environment.templates[main]
    run, end = model.rendered(environment.world(case), body, escape, model.context_of(case), main, environment.ids)
    written, end, _ = model.cut(run.trace, end, fuel)
    raise Stop(": ".join(end) if end else None, (6 if end[-1] == "OutOfMemory" else 1) if end else 0, "".join(written))


def main():
    try:
        ran(sys.argv[1:], sys.stdin.buffer.read())
    except Stop as s:
        STOPPED.append(s)


STOPPED = []
model.threaded(main)
s = STOPPED[0]
sys.stdout.buffer.write(s.text.encode())
if s.fault is not None:
    sys.stderr.write("fault: " + s.fault + "\n")
sys.stdout.flush()
sys.exit(s.status)

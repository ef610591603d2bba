"""Compares the model with stored rows: compare.py STDOUT [builtins]   (with `builtins` on those of the builtins alone)"""
import json
import sys
import model


def main():
    path = sys.argv[1]
    answer = model.answer
    of_builtins = sys.argv[2:] == ["builtins"]
    if of_builtins:
        import builtin_answers

        answer = builtin_answers.answer
    good = bad = skipped = 0
    for number, line in enumerate(open(path, encoding="utf-8").read().split("\n"), 1):
        if not line or line.startswith("#"):
            continue
        case_text, wanted = None, None
        decoder = json.JSONDecoder()
        try:
            case, at = decoder.raw_decode(line)
        except ValueError:
            skipped += 1
            continue
        if ("s" in case) != of_builtins:
            continue
        assert line[at:at + 3] == " = ", line
        wanted = line[at + 3:]
        try:
            got = answer(case)
        except model.Skip:
            skipped += 1
            continue
        if got == wanted:
            good += 1
        else:
            bad += 1
            print(f"{number}: {line[:at][:300]}\n    stored {wanted[:200]}\n    model  {got[:200]}")
    print(good, "alike,", bad, "not,", skipped, "skipped")


model.threaded(main)

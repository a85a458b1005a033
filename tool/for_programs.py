"""Tests what the command prints for programs: JSON, CSV and SVG, parsed by parsers that
have nothing to do with it, and compared with what it prints in words. Takes the program, a
folder for files and the folder of cases; prints what failed, and last 'N passed, M failed'."""
import csv
import glob
import io
import json
import os
import re
import subprocess
import sys
import xml.etree.ElementTree as tree

program, made, cases = sys.argv[1:4]
passed, failed = 0, 0


def compare(name, expected, actual):
    global passed, failed
    if expected == actual:
        passed += 1
    else:
        failed += 1
        print(f"FAILED: {name}\nexpected: {expected!r}\nprinted: {actual!r}")


def run(*arguments, rules=None):
    done = subprocess.run([program, *arguments], input=rules, capture_output=True, check=False)
    return done.returncode, done.stdout, done.stderr


def no_key_twice(pairs):
    assert len(pairs) == len(dict(pairs)), f"a key twice in {pairs}"
    return dict(pairs)


def parsed(name, text):
    """The object of one line of JSON."""
    try:
        assert text.endswith(b"\n") and text.count(b"\n") == 1, "not one line"
        return json.loads(text.decode(), object_pairs_hook=no_key_twice)
    except (ValueError, AssertionError) as wrong:
        compare(name, "JSON", f"{wrong}: {text!r}")
        return {}


def ask(name, *arguments, rules=None):
    """The object that --json prints, with the status; standard error is silent."""
    status, out, err = run("--json", *arguments, rules=rules)
    compare(f"{name}, standard error", b"", err)
    return status, parsed(name, out)


def table(text):
    """The rows of the table of a yes: words by their column's name."""
    lines = text.decode().split("\n")
    at = next(number for number, line in enumerate(lines) if line.startswith("  event "))
    rows = []
    for line in lines[at + 1:]:
        if not line:
            break
        match = re.match(r'  ("[^"]*"|\S+)\s+(.*)', line)
        rows.append([match.group(1)] + re.findall(r'-?"[^"]*"|\S+', match.group(2)))
    return lines[at].split(), rows


def number(text):
    return None if text == "none" else int(text)


def bare(name):
    return name.replace('"', "")


def seconds(text):
    return None if text in ("none", "-") else float(text)


def check_yes(name, text, answer):
    events = answer.get("events")
    if b"\n  event " not in text:
        compare(f"{name}, no events", [], events)
        return
    head, rows = table(text)
    timed = "seconds" in head
    expected = []
    for row in rows:
        name_of, cells, group = row[0], row[1:-1], row[-1]
        plain = cells[::2] if timed else cells
        event = {"event": bare(name_of), "value": int(plain[0]), "least": number(plain[1]),
                 "greatest": number(plain[2]), "group": bare(group.lstrip("-")),
                 "sign": -1 if group.startswith("-") else 1, "seconds": None}
        if timed and cells[1] != "-":
            event["seconds"] = {"value": seconds(cells[1]), "least": seconds(cells[3]),
                                "greatest": seconds(cells[5])}
        expected.append(event)
    compare(f"{name}, events", expected, events)
    compare(f"{name}, integers", [int] * len(expected),
            [type(event["value"]) for event in events])


def check_clash(name, text, answer, numbers):
    quoted = re.findall(r"^  (\S.*?):(\d+): +(.*)$", text.decode(), re.M)
    rules = answer["clash"]["rules"]
    compare(f"{name}, rules", [(file, int(line)) for file, line, _ in quoted],
            [(rule["file"], rule["line"]) for rule in rules])
    for (_, _, words), rule in zip(quoted, rules):
        identifier = re.search(r"  @ 0x([0-9A-F]{8})(?=  |$)", words)
        compare(f"{name}, a rule", True, words.startswith(rule["rule"].replace("\t", " ")))
        compare(f"{name}, an identifier", identifier and int(identifier.group(1), 16),
                rule["identifier"])
        compare(f"{name}, a comment", True, words.endswith(rule["comment"] or ""))
    body = text.decode().split("\n\n", 2)[2]
    end = re.search(r"^  (?:Added up|It says): 0 <= (-\d+), which is false\.$", body, re.M)
    sentences = [line[2:] for line in body[:end.start()].split("\n") if line]
    compare(f"{name}, the argument", sentences, answer["clash"]["argument"])
    compare(f"{name}, the sum", int(end.group(1)), answer["clash"]["sum"])
    if numbers is not None:
        lines = numbers.decode().split("\n")
        compare(f"{name}, the refutation", [int(part) for part in lines[0].split()],
                answer["refutation"])
        compare(f"{name}, the identifiers", lines[1].split()[1:],
                [str(own) for own in answer["identifiers"]] if any(answer["identifiers"]) else [])


def check_errors(name, text, answer):
    shown = text.decode(errors="surrogateescape")
    heads = re.findall(r"^(?!  )(?:utvpi: )?(.*)$", shown, re.M)[:-1]
    errors = answer["errors"]
    compare(f"{name}, errors", len(heads), len(errors))
    for head, error in zip(heads, errors):
        place = f"{error['file']}:{error['line']}: " if error["line"] else \
            f"{error['file']}, byte {error['byte']}: " if error["byte"] is not None else \
            f"{error['file']}: "
        refused = "" if error["number"] is None else \
            f"refused with number {error['number']}, place {error['place']}: "
        compare(f"{name}, an error", True,
                head.startswith(place + refused) and
                (error["what"][:20].isascii() and error["what"][:20] in head or "\\x" in head))
    advice = re.findall(r"^  What to do: (.*)\.$", shown, re.M)
    compare(f"{name}, advice", advice, [error["advice"] for error in errors if error["advice"]])


WORDS = re.compile(rb"^[ \t]*(?:either|or|all|end)[ \t\r]*(?:#.*)?$", re.M)
ALTERNATIVE = re.compile(r"^ *(\S.*?):(\d+): +alternative (\d+) of (\d+)", re.M)


def alternatives_in(text):
    return [(file, *map(int, numbers)) for file, *numbers in ALTERNATIVE.findall(text)]


def places_of(alternatives):
    return [(own["file"], own["line"], own["alternative"], own["of"]) for own in alternatives]


def lines_of(file, line):
    """The lines of the alternative that begins there."""
    with open(file, "rb") as rules:
        words = [text.split(b"#")[0].strip() for text in rules.read().split(b"\n")]
    depth, at = 0, line
    while depth > 0 or words[at] not in (b"or", b"end"):
        depth += {b"either": 1, b"all": 1, b"end": -1}.get(words[at], 0)
        at += 1
    return set(range(line + 1, at + 1))


def check_alternatives(name, text, answer):
    """The alternatives of a yes, each with its rules, those of eithers in it left out."""
    shown = text.decode().split("\n\n")[1]
    compare(f"{name}, alternatives", alternatives_in(shown), places_of(answer["alternatives"]))
    quoted = [(file, int(line), words) for file, line, words in
              re.findall(r"^  (\S.*?):(\d+): +(.*)$", shown, re.M)
              if not re.fullmatch(r"alternative \d+ of \d+", words)]
    rules = sorted((rule["line"], rule["file"], rule["rule"], rule["identifier"])
                   for own in answer["alternatives"] for rule in own["rules"])
    compare(f"{name}, rules of alternatives", [(line, file) for file, line, _ in quoted],
            [rule[:2] for rule in rules])
    for (_, _, words), (_, _, rule, identifier) in zip(quoted, rules):
        compare(f"{name}, a rule", True, words.startswith(rule))
        at = re.search(r"(?:@ *|^(?:-?\d+[ ,]+){5})(\S+)$", words)
        compare(f"{name}, an identifier", at and int(at.group(1), 0) or None, identifier)


def check_reasons(name, file, text, answer):
    """The reasons of a no: each is told as in words, and its numbers pass --check with the
    rules of the file, taken all together."""
    told = re.split(r"\n\n(?=\S)", text.decode())[1:]
    plain = os.path.join(made, "without_words")
    with open(file, "rb") as rules, open(plain, "wb") as without:
        without.write(WORDS.sub(b"", rules.read()))
    compare(f"{name}, reasons", len(told), len(answer["reasons"]))
    for part, reason in zip(told, answer["reasons"]):
        compare(f"{name}, members of a reason",
                {"alternatives", "clash", "refutation", "identifiers"}, set(reason))
        compare(f"{name}, alternatives of a reason", alternatives_in(part.split("\n\n")[0]),
                places_of(reason["alternatives"]))
        quoted = {rule["line"] for rule in reason["clash"]["rules"]}
        compare(f"{name}, alternatives without a rule", [],
                [own for own in reason["alternatives"] if not quoted & lines_of(file, own["line"])])
        check_clash(name, part.encode(), reason, None)
        numbers = " ".join(map(str, reason["refutation"])) + "\nidentifiers " + \
            " ".join(map(str, reason["identifiers"]))
        status, checked = ask(name, "--check", "-", plain, rules=numbers.encode())
        compare(f"{name}, a reason checked", (0, "yes", reason["clash"]["argument"]),
                (status, checked["answer"], checked["clash"]["argument"]))


MEMBERS = {"yes": {"answer", "events", "rules", "left_out", "notes"},
           "no": {"answer", "clash", "refutation", "identifiers", "rules", "left_out", "notes"},
           "refused": {"answer", "errors"}}


def has_either(file):
    with open(file, "rb") as rules:
        return re.search(rb"^[ \t]*either[ \t\r]*(#.*)?$", rules.read(), re.M) is not None


def members_of(said, answer, either):
    """The members that an answer is to have; with alternatives a no has reasons, unless one
    clash is for all."""
    if not either or said == "refused":
        return MEMBERS[said]
    if said == "yes":
        return MEMBERS["yes"] | {"alternatives"}
    return MEMBERS["no"] if "clash" in answer else \
        MEMBERS["no"] - {"clash", "refutation", "identifiers"} | {"reasons"}


def check_case(file):
    """Compares the JSON of a case with its words."""
    name = os.path.basename(file)
    given = [file] if os.path.exists(file[:-4] + ".refutation") else []
    check = ["--check", file[:-4] + ".refutation"] if given else []
    status, out, err = run("--quiet", *check, file)
    own, answer = ask(name, "--quiet", *check, file)
    said = answer.get("answer")
    compare(f"{name}, status", (status, {0: "yes", 1: "no", 2: "refused"}[status]), (own, said))
    if said == "refused":
        check_errors(name, err, answer)
    elif check and said == "no":
        index = re.search(rb"index (\d+)", out)
        member = answer.get("breaks") or answer.get("misnamed")
        compare(f"{name}, breaks", True, index is None or int(index.group(1)) == member["index"])
    elif said == "yes" and not check:
        check_yes(name, out, answer)
        if "alternatives" in answer:
            check_alternatives(name, out, answer)
    elif "reasons" in answer:
        check_reasons(name, file, out, answer)
    else:
        check_clash(name, out, answer, None if check or has_either(file)
                    else run("--numbers", file)[1])
    if not check:
        compare(f"{name}, members", members_of(said, answer, has_either(file)), set(answer))


os.chdir(cases)
for case in sorted(glob.glob("*.txt")):
    check_case(case)
for example in sorted(glob.glob("../../examples/*.txt")):
    check_case(example)
plain = [file for file in sorted(glob.glob("../../examples/*.txt")) if not has_either(file)]

# Alternatives: nested, with identifiers and halves; one clash for all; none without events.
for at, rules in enumerate((
        b"x >= 0\neither\n x <= -1 @ 7 # c\nor\n x = 5 @ 0x18DA10F1\n all # a\n y - x >= 1\n end\n"
        b" either\n  y <= 2\n or\n  y <= 9 # last\n end\nend\n",
        b"either\nx + y = 3 @ 7 # c\nx - y = 0\nor\nx = 5 @ 9\nx <= 4\nend\n",
        b"either\nx >= 3\nor\nx >= 5\nend\neither\nx <= 2\nor\nx <= 1 # d\nend\n",
        b"x < x\neither\nx >= 3\nor\nx >= 5\nend\n",
        b"either\n0 <= -1\nor\n0 <= -2 @ 5\nend\n",
        b"either\n0 <= -1\nor\n0 <= 2 @ 5\nend\n",
        b"either\n1 0 0 0 3 0\nor\n1,0,0,0,4,7\nend\n-1 0 0 0 -4 0\n",
        b"either\nx =< 3\nor\nx - y\nend\nor\neither\n",
        b"either\nx <= 3\n",
        # The library's refutations of some choices have rules that their arguments need not.
        b"d + d = 4\nd >= -4\nc <= -6\neither\nc + c <= 1\neither\nd <= 3\na >= 0\n"
        b"d = -6\na + a = 4\nor\nb + b >= -4\nb + c <= -3\na + a = 2\nc + c >= 1\nend\n"
        b"a + b <= 1\nor\neither\nb + b = -2\nc - b <= -6\nc + a >= 1\nor\nc = -1\n"
        b"c <= -5\nb + b = 1\nc + c <= -5\nend\nd - c <= -1\nend\neither\na >= 5\neither\n"
        b"c - d = 5\nd <= 5\nd - d = 6\nb - c <= -2\nor\nd + a <= -1\na - b <= -2\nend\n"
        b"b + c <= 0\nor\nd = 3\nend\na + c >= 1\n",
        b"x <= 3\neither\n" + b"or\n".join(b"x = %d\n" % row for row in range(257)) + b"end\n",
        b"either\nx <= 3\nor\n" * 4 + b"x <= 4\n" + b"end\n" * 4)):
    file = os.path.join(made, f"alternatives_{at}.txt")
    with open(file, "wb") as written:
        written.write(rules)
    check_case(file)
status, answer = ask("alternatives, members", os.path.join(made, "alternatives_0.txt"))
compare("alternatives, members", (0, [
    {"line": 4, "alternative": 2, "of": 2, "rules": [(5, "x = 5", None, 0x18DA10F1),
                                                     (7, "y - x >= 1", None, None)]},
    {"line": 11, "alternative": 2, "of": 2, "rules": [(12, "y <= 9", "# last", None)]}], 6, 0, []),
    (status, [{"line": own["line"], "alternative": own["alternative"], "of": own["of"],
               "rules": [(rule["line"], rule["rule"], rule["comment"], rule["identifier"])
                         for rule in own["rules"]]} for own in answer["alternatives"]],
     answer["rules"], answer["left_out"], answer["notes"]))
status, answer = ask("alternatives, a note", rules=b"either\nabcde = 3\nor\nx = 5\nend\nx <= 5\n")
compare("alternatives, a note", [2], [note["line"] for note in answer["notes"]])
for option in (["--order"], ["--between", "x", "x"], ["--implies", "x <= 3"], ["--why", "x"], ["--check", "/dev/null"],
               ["--svg", os.path.join(made, "none.svg")]):
    status, answer = ask(f"alternatives, {option}", *option, rules=b"x <= 3\neither\nx <= 1\nor\nx <= 2\nend\n")
    compare(f"alternatives, {option}", (2, "refused", [2], True),
            (status, answer["answer"], [error["line"] for error in answer["errors"]],
             f"which {option[0]} does not take" in answer["errors"][0]["what"]))
for at, line, refusal in ((10, 2, 40), (11, 10, 42)):
    status, answer = ask(f"alternatives refused, {refusal}", os.path.join(made, f"alternatives_{at}.txt"))
    compare(f"alternatives refused, {refusal}", (2, [(line, refusal)]),
            (status, [(error["line"], error["number"]) for error in answer["errors"]]))
compare("alternatives, no picture", False, os.path.exists(os.path.join(made, "none.svg")))

# Questions.
rules = b"a.x >= 3\nb - a.x >= 2\nb <= 9\nc <= 0\n"
status, answer = ask("between", "--quiet", "--between", "b", "a.x", rules=rules)
compare("between", (0, {"answer": "yes", "between": ["b", "a.x"],
                        "difference": {"least": 2, "greatest": 6},
                        "sum": {"least": 8, "greatest": 16}, "rules": 4, "left_out": 0,
                        "notes": []}), (status, answer))
status, answer = ask("no limit", "--quiet", "--between", "a.x", "c", rules=rules)
compare("no limit", ({"least": 3, "greatest": None}, {"least": None, "greatest": 7}),
        (answer["difference"], answer["sum"]))
status, answer = ask("implies", "--quiet", "--implies", "b >= 5", rules=rules)
compare("implies", (0, "yes", "b >= 5"), (status, answer["answer"], answer["rule"]))
status, answer = ask("not implied", "--quiet", "--implies", "b - c <= 8", rules=rules)
compare("not implied", (1, "no", {"terms": [{"event": "b", "sign": 1}, {"event": "c", "sign": -1}],
                                  "at_most": 8, "value": 9}),
        (status, answer["answer"], answer["broken"]))
values = {event["event"]: event["value"] for event in answer["events"]}
compare("values that break it", 9, values["b"] - values["c"])
status, answer = ask("a question on a clash", "--quiet", "--between", "a", "a",
                     rules=b"a <= 3\na >= 4\n")
compare("a question on a clash", (1, "no", -1), (status, answer["answer"], answer["clash"]["sum"]))

# Why: as in words, with bounds that are those of deciding, and showings that a second checker
# takes against the rules as --text prints them.
with open("../../include/utvpi.h", encoding="ascii") as header:
    OPPOSITE = int(re.search(r"^#define UTVPI_MOST_LINES (\d+)$", header.read(), re.M).group(1))


def sides(line):
    """Where the steps of a line lead, with their weight; a point is a variable and a sign."""
    (a, x, b, y, d) = line[:5]
    if a == 0:
        return []
    if b == 0:
        return [((x, a), (x, -a), 2 * d)]
    return [((x, a), (y, -b), d), ((y, b), (x, -a), d)]


def is_shown(lines, line, numbers):
    """Whether numbers are a refutation of lines and of the opposite of a line."""
    all_lines = dict(enumerate(lines))
    all_lines[OPPOSITE] = [-line[0], line[1], -line[2], line[3], -line[4] - 1]
    kind, p, q, *steps = numbers
    if kind == 3:
        own = all_lines[steps[0] // 2]
        return (p, q, len(steps)) == (1, 0, 1) and own[0] == 0 and own[4] < 0
    walk = [sides(all_lines[step // 2])[step % 2] for step in steps]
    joined = all(one[1] == other[0] for one, other in zip(walk, walk[1:] + walk[:1]))
    sums = [sum(step[2] for step in part) for part in (walk[:p], walk[p:])]
    if kind == 1:
        return joined and q == 0 and p == len(steps) > 0 and sums[0] < 0
    start = walk[0][0]
    return kind == 2 and joined and p > 0 and q > 0 and p + q == len(steps) and \
        walk[p - 1][1] == (start[0], -start[1]) and sums[0] // 2 + sums[1] // 2 < 0


def check_shown(name, file, answer, own_identifier=0):
    """The lines of an answer to --why, against the rules of a file without origins."""
    order = [event["event"] for event in ask(name, "--quiet", file)[1]["events"]]
    lines = [[int(part) for part in row.split()]
             for row in run("--text", file)[1].decode().split("\n")[1:-1]]
    for shown in answer["shown"]:
        compare(f"{name}, members of what is shown",
                {"terms", "at_most", "rules", "argument", "showing", "identifiers"}, set(shown))
        terms = [(term["sign"], order.index(term["event"])) for term in shown["terms"]]
        line = [number for term in (terms + [(0, 0), (0, 0)])[:2] for number in term] + \
            [shown["at_most"]]
        compare(f"{name}, shown", True, is_shown(lines, line, shown["showing"]))
        compare(f"{name}, identifiers",
                [own_identifier if step // 2 == OPPOSITE else lines[step // 2][5]
                 for step in shown["showing"][3:]], shown["identifiers"])


def check_why(name, text, answer):
    """Rules and sentences are those in words."""
    words = text.decode()
    quoted = [(file, int(line)) for file, line in re.findall(r"^  (\S.*?):(\d+): ", words, re.M)]
    told = [(rule["file"], rule["line"]) for shown in answer["shown"] for rule in shown["rules"]]
    if "rule" in answer:
        told = list(dict.fromkeys(told))
    compare(f"{name}, rules", quoted, told)
    sentences = [line[2:] for line in words.split("\n")
                 if line.startswith("  ") and not re.match(r"  So |  \S.*?:\d+: ", line)]
    compare(f"{name}, the argument", sentences,
            [sentence for shown in answer["shown"] for sentence in shown["argument"]])


for example in ["../../examples/brake.txt", "../../examples/merge_holds.txt", "mirror_halves.txt",
                "mirror_several.txt", "words_strict.txt"]:
    for event in ask(f"why, {example}", "--quiet", example)[1]["events"]:
        name = f"why {event['event']} of {example}"
        status, answer = ask(name, "--quiet", "--why", event["event"], example)
        compare(name, (0, "yes", event["event"], event["least"], event["greatest"]),
                (status, answer["answer"], answer["event"], answer["least"], answer["greatest"]))
        compare(f"{name}, members",
                {"answer", "event", "least", "greatest", "shown", "rules", "left_out", "notes"},
                set(answer))
        compare(f"{name}, as many", [event["least"], event["greatest"]].count(None),
                2 - len(answer["shown"]))
        check_why(name, run("--quiet", "--why", event["event"], example)[1], answer)
        check_shown(name, example, answer)
    with open(example, encoding="ascii") as rules:
        for rule in re.findall(r"^[^#\n]*[<>=][^#\n]*", rules.read(), re.M):
            name = f"why {rule} of {example}"
            status, answer = ask(name, "--quiet", "--why", rule, example)
            compare(name, (0, "yes", rule.strip()), (status, answer["answer"], answer["rule"]))
            compare(f"{name}, lines", 2 if re.search("[^<>]=", rule) else 1, len(answer["shown"]))
            check_why(name, run("--quiet", "--why", rule, example)[1], answer)
            check_shown(name, example, answer)
file = os.path.join(made, "shown.txt")
with open(file, "wb") as written:
    written.write(b"x <= 9\nx + y <= 5 @ 7 # c\nx - y <= 0\nx <= 8\nz + z <= 7\n")
status, answer = ask("why, two halves", "--quiet", "--why", "x + z <= 5 @ 33", file)
compare("why, two halves", (0, "x + z <= 5 @ 33", [3, 2, 5], 5, 1),
        (status, answer["rule"], [rule["line"] for rule in answer["shown"][0]["rules"]],
         answer["shown"][0]["at_most"], answer["left_out"]))
check_shown("why, two halves", file, answer, 33)
for rule in ("0 <= 3", "x - x <= 2"):
    status, answer = ask(f"why {rule}", "--quiet", "--why", rule, file)
    compare(f"why {rule}", (0, [], []), (status, answer["shown"][0]["rules"],
                                        answer["shown"][0]["argument"]))
    check_shown(f"why {rule}", file, answer)
status, answer = ask("why not", "--quiet", "--why", "x <= 1", file)
compare("why not", (1, "no", {"terms": [{"event": "x", "sign": 1}], "at_most": 1, "value": 2}),
        (status, answer["answer"], answer["broken"]))
status, answer = ask("why not, far", "--quiet", "--why", "x >= -2000000", file)
compare("why not, far", (1, {"answer": "no", "rule": "x >= -2000000", "broken": {
    "terms": [{"event": "x", "sign": -1}], "at_most": 2000000, "value": None},
    "rules": 5, "left_out": 1, "notes": []}), (status, answer))
status, answer = ask("why, a clash", "--quiet", "--why", "a", rules=b"a <= 3\na >= 4\n")
compare("why, a clash", (1, "no", -1), (status, answer["answer"], answer["clash"]["sum"]))
status, answer = ask("why, more lines than the library takes", "--quiet", "--why", "x",
                     rules=b"x <= 3\n" * (OPPOSITE + 1) + b"x <= 2\n")
compare("why, more lines than the library takes", (0, 2, {"terms", "at_most", "rules", "argument"}),
        (status, answer["greatest"], set(answer["shown"][0])))

# Notes, rules that were left out, large readings, odd bytes, the command line, other faults.
status, answer = ask("notes", rules=b"a <= 3\na <= 4\nbb-cc <= 3\n")
compare("notes", (3, 1, [3]), (answer["rules"], answer["left_out"],
                               [note["line"] for note in answer["notes"]]))
status, answer = ask("a large reading", "--quiet",
                     rules=b"origin a = 1436509052249713000\na >= 1436509052249713005\n")
compare("a large reading", 1436509052249713005, answer["events"][0]["value"])
status, answer = ask("odd bytes", "--quiet", rules="x <= 3 # \u00b5 \" \\ \t".encode() + b"\xff\nx >= 4\n")
compare("odd bytes", '# \u00b5 " \\ \t\u00ff', answer["clash"]["rules"][0]["comment"])
status, answer = ask("a name in quotes", "--quiet", rules=b'"a \\ <b>" = 3\n')
compare("a name in quotes", "a \\ <b>", answer["events"][0]["event"])
status, answer = ask("infinite seconds", "--quiet", rules=b"clock a = 1e308 s per tick\na.x = 1000000\n")
compare("infinite seconds", float("inf"), answer["events"][0]["seconds"]["value"])
for wrong in (["--what"], ["--json", "--csv"], ["no_such_file"], ["--between", "a"], ["--why", "a <= 3"]):
    status, answer = ask(f"wrong: {wrong}", *wrong, rules=b"")
    compare(f"wrong: {wrong}", (2, "refused", 1), (status, answer["answer"], len(answer["errors"])))

# The order, in words and as JSON.
for example in plain:
    status, out, _ = run("--quiet", "--order", example)
    own, answer = ask(f"order of {example}", "--quiet", "--order", example)
    compare(f"order of {example}, status", status, own)
    if status == 0:
        words = out.decode()
        lines = re.findall(r"^ +(-?\d+)(?: +[-+\d.e]+)?  (\S+(?: = \S+)*)$", words.split("\n\n")[1], re.M)
        compare(f"order of {example}", [(int(value), events.split(" = ")) for value, events in lines],
                [(line["value"], line["events"]) for line in answer["order"]])
        forced = re.findall(r"^  (\S+) is (?:(?:at least|always) (\d+) before|never after) (\S+)$",
                            words, re.M)
        compare(f"forced orders of {example}", [(x, y, int(k or 0)) for x, k, y in forced],
                [(pair["before"], pair["after"], pair["at_least"]) for pair in answer["forced"]])

# A session: a line of JSON for each line that is answered, and nothing else.
said = b"clock a = 2 s per tick\na.x >= 3 @ 5 # c\n\n# none\nshow\norder\nlist\nfoo\na.x <= 2\nb <= 3\nundo\nundo\nhelp\nshow\n"
status, out, err = run("--json", "--session", rules=said)
answers = [parsed("a session", line + b"\n") for line in out.rstrip(b"\n").split(b"\n")]
compare("a session", (2, b"", [(1, "taken"), (2, "yes"), (5, "yes"), (6, "yes"), (7, "list"),
                              (8, "refused"), (9, "no"), (10, "refused"), (11, "withdrawn"),
                              (12, "withdrawn"), (13, "help"), (14, "yes")]),
        (status, err, [(answer["line"], answer["answer"]) for answer in answers]))
compare("a session's events", {"value": 6.0, "least": 6.0, "greatest": None},
        answers[2]["events"][0]["seconds"])
compare("a session's list", [(1, "clock a = 2 s per tick", None), (2, "a.x >= 3 @ 5", "# c")],
        [(entry["line"], entry["rule"], entry["comment"]) for entry in answers[4]["list"]])
compare("a session's undo", 9, answers[8]["withdrawn"]["line"])
compare("a session's help", True, answers[10]["help"].startswith("A session,"))
compare("a session's end", [], answers[11]["events"])

# CSV: the table of a yes.
for example in plain + ["words_group.txt", "mirror_several.txt"]:
    status, out, err = run("--quiet", "--csv", example)
    own, answer = ask(f"CSV of {example}", "--quiet", example)
    compare(f"CSV of {example}, status", own, status)
    if status == 1:
        compare(f"CSV of {example}, a no", (b"", True), (out, err.startswith(b"utvpi: no whole")))
        continue
    rows = list(csv.DictReader(io.StringIO(out.decode())))
    timed = any(event["seconds"] for event in answer["events"])
    for row, event in zip(rows, answer["events"]):
        wanted = {key: "" if event[key] is None else str(event[key])
                  for key in ("event", "value", "least", "greatest", "group", "sign")}
        if timed:
            for key in ("value", "least", "greatest"):
                own_seconds = (event["seconds"] or {}).get(key)
                text = row.pop(f"{key}_seconds")
                compare(f"CSV of {example}, seconds", own_seconds, float(text) if text else None)
        compare(f"CSV of {example}", wanted, dict(row))
    compare(f"CSV of {example}, rows", len(answer["events"]), len(rows))
out = run("--quiet", "--csv", rules=b'"a, b" <= 3\n"a, b" >= -2\n')[1].decode()
compare("CSV of an odd name", [["event", "value", "least", "greatest", "group", "sign"],
                               ["a, b", "0", "-2", "3", "a, b", "1"]], list(csv.reader(io.StringIO(out))))

# Pictures.
SVG = "{http://www.w3.org/2000/svg}"


def picture(name, *arguments, rules=None):
    """The elements of a picture, which is XML, and has no script and nothing from elsewhere."""
    _, out, err = run("--quiet", "--svg", "-", *arguments, rules=rules)
    compare(f"{name}, standard error", b"", err)
    try:
        root = tree.fromstring(out)
    except tree.ParseError as wrong:
        compare(name, "XML", f"{wrong}: {out[:200]!r}")
        return []
    compare(f"{name}, an SVG", f"{SVG}svg", root.tag)
    elements = list(root.iter())
    compare(f"{name}, nothing foreign", True,
            all(element.tag.startswith(SVG) for element in elements) and
            not any(element.tag == f"{SVG}script" for element in elements) and
            not any("href" in key or key.startswith("on") for element in elements
                    for key in element.attrib) and b"url(" not in out)
    width, height = float(root.get("width")), float(root.get("height"))
    for element in root:
        x, y = element.get("x"), element.get("y")
        if x and y and not (0 <= float(x) <= width and 0 <= float(y) <= height):
            compare(f"{name}, inside", "inside", (element.tag, x, y))
    return elements


def names_in(elements):
    return [group.find(f"{SVG}text").text for group in elements
            if group.tag == f"{SVG}g" and group.get("class") == "event"]


for example in plain + sorted(glob.glob("words_*.txt")) + \
        ["mirror_several.txt", "scope_01.txt", "scope_03_no.txt", "scope_04.txt", "scope_05.txt"]:
    elements = picture(example, example)
    answer = ask(example, "--quiet", example)[1]
    if answer["answer"] == "yes":
        compare(f"events of {example}", sorted(event["event"] for event in answer["events"]),
                sorted(names_in(elements)))
        marks = [element for element in elements if element.get("class") == "mark"]
        compare(f"marks of {example}", len(answer["events"]) + (1 if answer["events"] else 0),
                len(marks))
    else:
        texts = [element.text or "" for element in elements if element.tag == f"{SVG}text"]
        compare(f"rules of {example}", True, all(any(rule["rule"][:60] in text for text in texts)
                                                 for rule in answer["clash"]["rules"]))
        compare(f"sum of {example}", True, f"0 \u2264 {answer['clash']['sum']}" in texts)
        stops = {bare(name).lstrip("-") for name in names_in(elements)}
        words = set(re.findall(r"[A-Za-z_][\w.]*", " ".join(rule["rule"] for rule in answer["clash"]["rules"])))
        if not any("," in rule["rule"] for rule in answer["clash"]["rules"]):
            compare(f"stops of {example}", set(), stops - words - {"0"})
many = "".join(f"e{at} <= e{at + 1}\n" for at in range(255)).encode()
compare("a picture of 256 events", [f"e{at}" for at in range(256)],
        sorted(names_in(picture("256 events", rules=many)), key=lambda name: int(name[1:])))
ring = many + b"e255 < e0\n"
compare("a ring of 256 events", sorted(f"e{at}" for at in range(256)),
        sorted(names_in(picture("a ring of 256", rules=ring))))
odd = b'"<a & b>" <= 3\n"<a & b>" >= 1 # "x"\nc = 2\n'
compare("odd names in a picture", ["<a & b>", "c"], sorted(names_in(picture("odd names", rules=odd))))
odd += b'"<a & b>" > 5\n'
compare("odd names in a ring", ['"<a & b>"', "0"], sorted(names_in(picture("odd names", rules=odd))))
drawn = os.path.join(made, "drawn.svg")
status, out, err = run("--quiet", "--svg", drawn, "words_group.txt")
compare("a picture beside the answer", (0, run("--quiet", "words_group.txt")[1]), (status, out))
with open(drawn, "rb") as file:
    compare("a picture in a file", run("--quiet", "--svg", "-", "words_group.txt")[1], file.read())
compare("a picture again", 1, run("--quiet", "--svg", drawn, "scope_04.txt")[0])
with open(drawn, "rb") as file:
    compare("a picture written over", True, b"halved and added up" in file.read())

print(f"{passed} passed, {failed} failed")

#!/usr/bin/env python3
"""Compares callplan.h, the declarations in Rust and the documents with the Rattle sources: functions, refusals, constants, classes, versions.

Then damages each text in memory, one damage at a time, and sees that the comparison notices. The last line is 'N passed, M failed'.
"""

import re
import sys
from pathlib import Path

ROOT = Path(__file__).resolve().parent.parent
FILES = {
    "binding": "crates/binding/src/lib.rt",
    "room": "crates/slices/specs/Lent.antt",
    "answered": "crates/answers/specs/Answered.antt",
    "edits": "crates/edits/specs/Lent.antt",
    "lent": "crates/lent/specs/Written.antt",
    "lists": "crates/replay/specs/Replayed.antt",
    "rows": "crates/calls/specs/Rows.antt",
    "calls": "crates/calls/specs/Slices.antt",
    "which": "crates/graph/specs/Which.antt",
    "figure": "crates/graph/specs/Figure.antt",
    "lines": "crates/wording/specs/Lines.antt",
    "route": "crates/graph/specs/Route.antt",
    "graph": "crates/graph/specs/Graph.antt",
    "class": "crates/graph/specs/Class.antt",
    "numbers": "crates/numbers/src/lib.rt",
    "refusal": "crates/rules/specs/Refusal.antt",
    "limits": "crates/rules/specs/Limits.antt",
    "image": "crates/rules/specs/Image.antt",
    "text": "crates/aldebaran/specs/Text.antt",
    "quotations": "crates/rules/specs/Quotations.antt",
    "words": "crates/generator/specs/Words.antt",
    "generated": "crates/generated/specs/Generated.antt",
    "header": "include/callplan.h",
    "package": "include/callplan.pc",
    "cargo": "rust/callplan/Cargo.toml",
    "crate": "rust/callplan/src/lib.rs",
    "archive": "rust/callplan/src/archive.rs",
    "kinds": "rust/callplan/src/kind.rs",
    "refusals": "rust/callplan/src/refusal.rs",
    "replay": "rust/callplan/src/replay.rs",
    "proved": "reference/src/proved.rs",
    "launch": "programs/launch",
    "page": "docs/quote.1",
    "import page": "docs/callplan-import.1",
    "generate page": "docs/callplan-generate.1",
    "rules page": "docs/RULES.md",
    "changes": "CHANGELOG.md",
}
C_TYPES = {"size_t": "usize", "uint8_t": "u8", "uint16_t": "u16", "uint32_t": "u32", "void": "()"}


# ---- Functions, each as (name, parameters, result) in Rust's words. A slice is a pointer and its length.


def of_rattle(text):
    pattern = r'#\[unsafe\(no_mangle\)\]\s+pub extern "C" fn (\w+)\(([^)]*)\)(?:\s*->\s*([^\s{]+))?'
    for name, parameters, result in re.findall(pattern, text):
        out = []
        for parameter in filter(None, map(str.strip, parameters.split(","))):
            label, kind = map(str.strip, parameter.split(":"))
            lent = re.fullmatch(r"&(mut )?\[(\w+)\]", kind)
            if lent:
                out += [f"{label}: *{'mut' if lent[1] else 'const'} {lent[2]}", f"{label}_len: usize"]
            else:
                out.append(f"{label}: {kind}")
        yield name, out, result or "()"


def of_c(text):
    text = re.sub(r"/\*.*?\*/", "", text, flags=re.S)
    for result, name, parameters in re.findall(r"^(\w+) (\w+)\(([^)]*)\);", text, flags=re.M):
        out = []
        for parameter in filter(None, map(str.strip, parameters.replace("void", "").split(","))):
            const, kind, star, label = re.fullmatch(r"(const )?(\w+) (\*?)(\w+)", parameter).groups()
            pointer = f"*{'const' if const else 'mut'} " if star else ""
            out.append(f"{label}: {pointer}{C_TYPES[kind]}")
        yield name, out, C_TYPES[result]


def of_rust(text):
    for block in re.findall(r'^extern "C" \{\n(.*?)^\}', text, flags=re.S | re.M):
        for name, parameters, result in re.findall(r"fn (\w+)\(([^)]*)\)(?: -> (\w+))?;", block):
            yield name, [" ".join(p.split()) for p in parameters.split(",") if p.strip()], result or "()"


# ---- Numbers.


def number(text, pattern):
    """The number that the pattern finds, if it finds just one."""
    found = re.findall(pattern, text)
    return int(found[0]) if len(found) == 1 else None


def numbers(text, pattern):
    return [(name, int(value)) for name, value in re.findall(pattern, text)]


def between(text, first, last):
    return text.split(first, 1)[1].split(last, 1)[0] if first in text else ""


def form(text, name):
    """How many octets the fixed words of a form have together, and how many numbers stand between them."""
    pieces = between(text, f"\n{name} =", "[]")
    words = re.findall(r'word \(octets "((?:[^"\\]|\\.)*)"\)', pieces)
    return sum(len(re.sub(r"\\.", "x", word)) for word in words), pieces.count("number ∷")


def constant(name):
    return re.sub(r"(?<!^)(?=[A-Z])", "_", name).upper()


def comparisons(t):
    """Everything that is compared, as (what, in the source, found). Nothing in the source is no source, and wrong."""
    functions = list(of_rattle(t["binding"]))
    yield "exported functions are all found", t["binding"].count("#[unsafe(no_mangle)]"), len(functions)
    for place, found in ("header", of_c), ("archive", of_rust), ("proved", of_rust):
        declared = list(found(t[place]))
        yield f"{FILES[place]}: the functions", [f[0] for f in functions], [f[0] for f in declared]
        for one, other in zip(functions, declared):
            yield f"{FILES[place]}: {one[0]}", one, other

    answers = between(t["header"], "typedef enum callplan_answer {", "} callplan_answer;")
    answers = numbers(answers, r"(?m)^ *CALLPLAN_(\w+) = (\d+)")
    table = numbers(between(t["numbers"], "match refusal {", "}"), r"Refusal::(\w+) => (\d+),")
    yield "crates/numbers: number and its definition", table, numbers(t["refusal"], r"(?m)^number (\w+) = (\d+)$")
    short = number(t["edits"], r"short : has_room before ≡ false → \(r ≡ (\d+)\)")
    accepted = number(t["refusal"], r"code \(accepted a\) = (\d+)")
    yield "the answer with a length", accepted, number(t["lent"], r"length_code \(accepted n\) = (\d+) \+ n")
    no_calls = number(t["lists"], r"are_calls kinds arguments octets ≡ false → \(r ≡ (\d+)\)")
    yield "short slices of a filling", short, number(t["lent"], r"short : .* ≡ false → \(r ≡ (\d+)\)")
    yield "short slices of a replay", short, number(t["lists"], r"short : .* ≡ false → \(r ≡ (\d+)\)")
    expected = [("REFUSED_" + constant(name), value) for name, value in table]
    expected += [("NO_CALLS", no_calls), ("SHORT_SLICE", short), ("ACCEPTED", accepted)]
    yield "include/callplan.h: the answers", expected, answers
    yield "reference: no calls", no_calls, number(t["proved"], r"const NO_CALLS: u32 = (\d+)")
    declared = between(t["refusals"], "pub enum Refusal {", "}")
    yield "rust/callplan: the refusals", [name for name, _ in table] + ["NoCalls", "Other"], re.findall(r"(?m)^ *(\w+)(?:\(u32\))?,", declared)
    listed = re.findall(r'\(\s*Refusal::(\w+),\s*(\d+),\s*"([^"]*)"', between(t["refusals"], "const REFUSALS", "];"))
    yield "rust/callplan: the refusals by number", [*table, ("NoCalls", no_calls)], [(name, int(value)) for name, value, _ in listed]
    said = re.findall(r'case CALLPLAN_(?:REFUSED_(\w+)|(NO_CALLS)): return "([^"]*)";', t["header"])
    said = [(refused or other, text) for refused, other, text in said]
    yield "what the refusals say, in C and in Rust", [(constant(name), text) for name, _, text in listed], said
    page = between(t["rules page"], "\n## The table of refused calls\n", "\n## ")
    yield "docs/RULES.md: the refusals by number", [value for _, value in table], [int(value) for value in re.findall(r"(?m)^\| (\d+) \|", page)]
    texts = re.findall(r"case CALLPLAN_(\w+): return", between(t["header"], "callplan_answer_text(callplan_answer answer)", "\n}"))
    yield "include/callplan.h: every answer says something", [name for name, _ in answers], texts
    yield "rust/callplan: accepted", accepted, number(t["crate"], r"const ACCEPTED: u32 = (\d+)")
    yield "reference: accepted", accepted, number(t["proved"], r"const ACCEPTED: u32 = (\d+)")
    yield "reference: short slices", short, number(t["proved"], r"const SHORT_SLICE: u32 = (\d+)")

    states = number(t["limits"], r"state_count_ok n = leb 1 n && leb n (\d+)")
    transitions = number(t["limits"], r"transition_count_ok m = leb m (\d+)")
    length = re.findall(r"image_length n m = (\d+) \+ n \+ (\d+) \* m", t["image"])
    octets = int(length[0][0]) + states + int(length[0][1]) * transitions if len(length) == 1 else None
    duration = number(t["limits"], r"leb t\.high (\d+)")
    (first, three), (line, four) = form(t["text"], "first_form"), form(t["text"], "line_form")
    yield "the numbers of a text's lines", (3, 4), (three, four)
    first += len(f"{states - 1}{transitions}{states}")
    text = first + transitions * (line + len(f"{states - 1}{duration}{duration}{states - 1}"))
    constants = {
        "MAX_STATES": states,
        "MAX_TRANSITIONS": transitions,
        "MAX_DURATION": duration,
        "MAX_TEAM": number(t["class"], r"team_ok team = leb team (\d+)"),
        "OPEN_HIGH": number(t["route"], r"limit high = cond \(eqb high (\d+)\) Open"),
        "MAX_IMAGE_OCTETS": octets,
        "MAX_TEXT_OCTETS": text,
        "RECORD_OCTETS": number(t["quotations"], r"record_rows g buffer = limit_row g ∷ buffer_row buffer (\d+)"),
    }
    yield "the record's length", constants["RECORD_OCTETS"], number(t["quotations"], r"by_table \(record_rows g buffer\) (\d+)")
    marks = {
        "START": number(t["graph"], r"start_bit v = v / (\d) % 2"),
        "FINAL": number(t["graph"], r"final_bit v = v / (\d) % 2"),
        "COUNTED": 1 if "counted_bit v = v % 2" in t["graph"] else None,
    }
    # Each class by its name in words, with its first and its last team.
    firsts, lasts = (dict(numbers(t["class"], rf"(?m)^{place} (\w+) = (\d+)$")) for place in ("first_team", "last_team"))
    classes = [(constant(name).replace("_", " ").lower(), first, lasts.get(name)) for name, first in firsts.items()]
    yield "the last team of the last class", constants["MAX_TEAM"], classes[-1][2] if classes else None
    for place, marker, pattern in (
        ("header", "Every team is in one of five classes:", r"(?m)^ \* {5}(\d+)(?: to (\d+))? +(\w[\w ]*)$"),
        ("rules page", "\n| team | class |\n", r"(?m)^\| (\d+)(?: to (\d+))? \| (\w[\w ]*) \|$"),
    ):
        listed = re.findall(pattern, between(t[place], marker, "\n\n"))
        yield f"{FILES[place]}: the classes of teams", classes, [(name, int(first), int(last or first)) for first, last, name in listed]
    kinds = [("NUMBER" if k == "(number k)" else k, v) for k, v in numbers(t["figure"], r"(?m)^kind (.*) = (\d)$")]
    for name, value in constants.items():
        yield f"include/callplan.h: {name}", value, number(t["header"], rf"#define CALLPLAN_{name} (\d+)")
        yield f"rust/callplan: {name}", value, number(t["crate"], rf"pub const {name}: \w+ = (\d+);")
    for name, value in marks.items():
        yield f"include/callplan.h: {name}", value, number(t["header"], rf"\bCALLPLAN_{name} = (\d)")
        yield f"rust/callplan: {name}", value, number(t["crate"], rf"pub const {name}: u32 = (\d);")
    bounds = re.findall(r"(?m)^most \w+ = (\d+)$", t["figure"])
    said = re.findall(r"seconds, at most ([\d,]+) for the least delay and ([\d,]+) for the greatest, or counted states, at most (\d+);", t["header"])
    yield "include/callplan.h: the bounds of a number", bounds, [x.replace(",", "") for least, greatest, count in said for x in (least, greatest, count, count)]
    words = re.sub(r"\s*///\s*", " ", t["crate"])
    said = re.findall(r"Seconds, at most ([\d,]+) for the least delay and ([\d,]+) for the greatest, or counted states, at most (\d+)\.", words)
    yield "rust/callplan: the bounds of a number", bounds, [x.replace(",", "") for least, greatest, count in said for x in (least, greatest, count, count)]
    # How a seed makes a plan, in numbers: the words, and the durations that are drawn.
    rule = [number(t["words"], pattern) for pattern in (
        r"cond \(nat_lt \(suc i\) (\d+)\)", r"plus \(back 1 words\) (\d+)", r"plus \(back (\d+) words\) \(back", r"\(back (\d+) words\)\)\n",
        r"plus a b = \(a \+ b\) % (\d+)",
    )]
    durations = number(t["generated"], r"low = low % (\d+);")
    rule += [(number(t["words"], r"draw s k = word s \((\d+) \+ k\)") or 0) + 1, durations, durations]
    for place, text in ("header", re.sub(r"\n \* ?", " ", t["header"])), ("crate", words):
        said = re.findall(
            r"The first (\d+) words of 32 bits are the seed, then each the one before plus ([\dA-F]+) hex; each later word is the word (\d+) back plus the "
            r"word (\d+) back, modulo ([\d,]+)\. Words are drawn from the (\d+)th on, four a transition: from and to are a draw modulo n, low a draw modulo "
            r"([\d,]+), and high is low plus a draw modulo \(([\d,]+) - low\)\.", text)
        found = [int(n.replace(",", ""), 16 if i == 1 else 10) for one in said for i, n in enumerate(one)]
        yield f"{FILES[place]}: how a seed makes a plan", rule, found
    declared = between(t["header"], "typedef enum callplan_kind {", "} callplan_kind;")
    yield "include/callplan.h: the kinds", kinds, numbers(declared, r"CALLPLAN_(\w+) = (\d)")
    # What the kinds are called: a number by the word of its kind in the record, the others by the words of quote's lines.
    called = re.findall(r'(?m)^figure_text (\w+) = octets "(\w+)"$', t["lines"])
    called = [(name, dict(called).get(name)) for name, _ in kinds[1:]]
    given = re.findall(r'case CALLPLAN_(\w+): return "([^"]*)";', between(t["header"], "callplan_kind_text(callplan_kind kind)", "\n}"))
    yield "include/callplan.h: what the kinds are called", [("NUMBER", "number"), *called], given
    given = re.findall(r'Kind::(\w+) => "([^"]*)",', between(t["kinds"], "impl Kind {", "\n}"))
    yield "rust/callplan: what the kinds are called", [("NUMBER", "number"), *called], [(constant(name), text) for name, text in given]

    room = re.findall(r"= leb (\d+) counts && \(leb (\d+) states && leb (\d+) fields\)", t["room"])
    room = [tuple(map(int, r)) for r in room]
    yield "the places of a plan", [(2, 2 * states, 4 * transitions)], room
    for name, lent in ("SLICES", "states"), ("CONST_SLICES", "const_states"):
        slices = between(t["header"], f"#define CALLPLAN_{name}(plan) \\\n", "\n")
        given = f"(plan)->counts, 2, callplan_private_{lent}(plan), 2 * CALLPLAN_MAX_STATES, (plan)->fields, 4 * CALLPLAN_MAX_TRANSITIONS"
        yield f"include/callplan.h: the slices, {name}", given, slices.strip()
    out = number(t["quotations"], r"lent_quote_rows asked g walk out = .*buffer_row out (\d+) ∷")
    yield "include/callplan.h: the places of an answer", [str(out)] * 2, re.findall(r"figure->walk, CALLPLAN_MAX_STATES, out, (\d+)\)", t["header"])
    yield "reference: the places of a plan's states", 1, t["proved"].count("const STATES: usize = 2 * MAX_STATES;")
    room = re.findall(r"(?s)\nheld_rows image walks = [^\n]*buffer_row walks (\d+) ∷.*\nlent_held_rows image walks out = held_rows [^\n]*buffer_row out (\d+) ∷", t["quotations"])
    yield "the places of four answers", [(str(4 * states), str(4 * out))], room
    yield "include/callplan.h: the places of four answers", 1, t["header"].count("length, walks, 4 * CALLPLAN_MAX_STATES, out, 4 * 4)")
    room = re.findall(r"buffer_row walks (\d+) ∷ buffer_row out (\d+) ∷", t["rows"])
    yield "the places of a replay", [(str(4 * states), str(4 * out))], room
    given = "CALLPLAN_SLICES(plan), walks, 4 * CALLPLAN_MAX_STATES, out, 4 * 4)"
    yield "include/callplan.h: the places of a replay", 1, t["header"].count(given)
    calls = re.findall(r"(?m)^call_of octets (\S+|\(.*?\)+) a b c d = (\w+) ", t["calls"])
    calls = [(name.upper(), pattern.count("suc")) for pattern, name in calls]
    yield "include/callplan.h: the kinds of calls", calls, numbers(t["header"], r"CALLPLAN_CALL_(\w+) = (\d)")
    declared = numbers(between(t["replay"], "pub enum CallKind {", "\n}"), r"(?m)^    (\w+) = (\d),$")
    yield "rust/callplan: the kinds of calls", calls, [(constant(name), value) for name, value in declared]
    yield "rust/callplan: a kind of a call is an octet", 1, t["replay"].count("#[repr(u8)]\npub enum CallKind {")
    order = [(constant(name), place) for name, place in numbers(t["which"], r"(?m)^place (\w+) = (\d)$")]
    yield "the figures in turn", [name for name, _ in order], list(map(constant, re.findall(r"f (\w+)", between(t["which"], "\nin_turn f =", "\n"))))
    yield "the answers in turn", 1, t["answered"].count("four_numbers q = in_turn (λ which. numbers_of (quote_of q which))")
    places = numbers(t["header"], r"CALLPLAN_((?:LEAST|GREATEST)_\w+) = (\d)")
    yield "include/callplan.h: the places of the figures", order, places

    version = re.findall(r'#define CALLPLAN_VERSION "([\d.]+)"', t["header"])
    first, second, third = map(int, version[0].split("."))
    archive = number(t["binding"], r"fn callplan_lent_version\(\) -> u32\s+ensures \{ result ≡ (\d+) \}")
    yield "the archive's version", 10000 * first + 100 * second + third, archive
    yield "include/callplan.h: the version's number", archive, number(t["header"], r"#define CALLPLAN_VERSION_NUMBER (\d+)")
    yield "rust/callplan: the version's number", archive, number(t["crate"], r"pub const VERSION_NUMBER: u32 = (\d+);")
    yield "programs/launch: the version", version, re.findall(r"(?m)^version=(.*)$", t["launch"])
    for page in "page", "import page", "generate page":
        yield f"{FILES[page]}: the version", version, re.findall(r'"callplan ([\d.]+)"', t[page])
    yield "CHANGELOG.md: the version", version, re.findall(r"(?m)^## ([\d.]+)$", t["changes"])[:1]
    yield "include/callplan.pc: the version", version, re.findall(r"(?m)^Version: (.*)$", t["package"])
    yield "rust/callplan: the version", version, re.findall(r'(?m)^version = "(.*)"$', t["cargo"])


def compare(texts):
    """How many comparisons hold, and those that do not."""
    try:
        made = list(comparisons(texts))
    except (AttributeError, KeyError, TypeError, ValueError) as error:
        return 0, [("a text is not of the form that is compared", "another form", repr(error))]
    wrong = [one for one in made if one[1] != one[2] or one[1] in (None, [])]
    return len(made) - len(wrong), wrong


# ---- Damages: a text, what stands in it, and what is put in the place of the first.

DAMAGES = [
    ("binding", "callplan_lent_unjoin(", "callplan_lent_remove("),
    ("binding", "    n: usize,", "    n: u32,"),
    ("binding", "    seed: u32,\n    n: usize,\n    m: usize,", "    seed: u32,\n    m: usize,\n    n: usize,"),
    ("binding", "    seed: u32,", "    seed: u64,"),
    ("binding", "    octets: &[u8],\n) -> u32", "    octets: &mut [u8],\n) -> u32"),
    ("binding", "least_delay(\n    counts: &[usize],\n    states: &[u8],\n    fields: &[u16],\n    walk: &mut [u16],", "least_delay(\n    counts: &[usize],\n    states: &[u8],\n    fields: &[u16],\n    walk: &mut [u32],"),
    ("binding", "    team: u32,\n    walk: &mut [u16],", "    walk: &mut [u16],\n    team: u32,"),
    ("binding", "    state: usize,\n    team: u32,\n) -> u32", "    state: usize,\n    team: u8,\n) -> u32"),
    ("binding", "    from: usize,\n    to: usize,\n    low: u32,", "    to: usize,\n    from: usize,\n    low: u32,"),
    ("binding", "    value: u32,\n) -> u32", "    value: u32,\n) -> u64"),
    ("binding", "#[unsafe(no_mangle)]\n", "#[unsafe(no_mangle)]\npub extern \"C\" fn callplan_lent_more(n: usize) -> u32\n{ 0 }\n\n#[unsafe(no_mangle)]\n"),
    ("binding", "#[unsafe(no_mangle)]\npub extern", "pub extern"),
    ("numbers", "Refusal::Duration => 8", "Refusal::Duration => 9"),
    ("numbers", "Refusal::SpareBits => 6,", ""),
    ("numbers", "Refusal::TextForm => 15", "Refusal::TextForm => 14"),
    ("numbers", "Refusal::FromState => 16", "Refusal::FromState => 17"),
    ("numbers", "Refusal::ToState => 17", "Refusal::ToState => 7"),
    ("numbers", "Refusal::TeamNumber => 18", "Refusal::TeamNumber => 19"),
    ("refusal", "number TeamNumber = 18", "number TeamNumber = 17"),
    ("refusal", "number ListFull = 9", "number ListFull = 8"),
    ("refusal", "number ToState = 17", "number ToState = 16"),
    ("refusal", "code (accepted a) = 256", "code (accepted a) = 512"),
    ("edits", "(r ≡ 255)", "(r ≡ 254)"),
    ("lent", "(r ≡ 255)", "(r ≡ 254)"),
    ("lent", "= 256 + n", "= 255 + n"),
    ("lists", "(r ≡ 254)", "(r ≡ 253)"),
    ("lists", "(r ≡ 255)", "(r ≡ 254)"),
    ("rows", "buffer_row walks 2048", "buffer_row walks 2047"),
    ("rows", "buffer_row out 16", "buffer_row out 4"),
    ("calls", "a b c d = unjoin a", "a b c d = mark a b"),
    ("calls", "a b c d = team a b", "a b c d = mark a b"),
    ("room", "leb 8192 fields", "leb 8191 fields"),
    ("room", "leb 1024 states", "leb 512 states"),
    ("class", "team_ok team = leb team 31", "team_ok team = leb team 32"),
    ("class", "first_team Clinics = 10", "first_team Clinics = 9"),
    ("class", "last_team Switchboards = 29", "last_team Switchboards = 30"),
    ("answered", "in_turn (λ which.", "in_turn (λ other."),
    ("which", "place GreatestDelay = 1", "place GreatestDelay = 2"),
    ("which", "in_turn f = f LeastDelay", "in_turn f = f LeastCount"),
    ("limits", "leb n 512", "leb n 511"),
    ("limits", "leb m 2048", "leb m 4096"),
    ("limits", "leb t.high 2047", "leb t.high 2046"),
    ("image", "4 + n + 5 * m", "4 + n + 6 * m"),
    ("text", 'octets "des ("', 'octets "des  ("'),
    ("text", 'word (octets "..") ∷ number ∷ ', 'word (octets "..") ∷ '),
    ("quotations", "buffer_row out 4 ∷", "buffer_row out 5 ∷"),
    ("quotations", "image_rows image ++ (buffer_row walks 2048", "image_rows image ++ (buffer_row walks 2047"),
    ("quotations", "held_rows image walks ++ (buffer_row out 16 ∷", "held_rows image walks ++ (buffer_row out 15 ∷"),
    ("quotations", "buffer_row buffer 11", "buffer_row buffer 16"),
    ("quotations", "(record_rows g buffer) 11", "(record_rows g buffer) 16"),
    ("graph", "start_bit v = v / 4", "start_bit v = v / 8"),
    ("graph", "final_bit v = v / 2", "final_bit v = v / 4"),
    ("graph", "counted_bit v = v % 2", "counted_bit v = v / 8 % 2"),
    ("figure", "kind STRANDED = 2", "kind STRANDED = 3"),
    ("lines", 'figure_text STRANDED = octets "STRANDED"', 'figure_text STRANDED = octets "LOST"'),
    ("header", 'case CALLPLAN_NONE: return "NONE";', 'case CALLPLAN_NONE: return "none";'),
    ("header", '    case CALLPLAN_ENDLESS: return "ENDLESS";\n', ""),
    ("header", 'case CALLPLAN_NUMBER: return "number";', 'case CALLPLAN_NUMBER: return "NUMBER";'),
    ("kinds", 'Kind::Stranded => "STRANDED"', 'Kind::Stranded => "stranded"'),
    ("figure", "most GreatestDelay = 1047552", "most GreatestDelay = 1048064"),
    ("figure", "most LeastCount = 513", "most LeastCount = 512"),
    ("route", "eqb high 2047", "eqb high 2046"),
    ("words", "plus (back 1 words) 2654435769", "plus (back 1 words) 2654435768"),
    ("words", "back 24 words", "back 31 words"),
    ("words", "(back 55 words)", "(back 54 words)"),
    ("words", "word s (55 + k)", "word s (54 + k)"),
    ("words", "% 4294967296", "% 4294967295"),
    ("words", "nat_lt (suc i) 55", "nat_lt (suc i) 56"),
    ("generated", "low = low % 2048;", "low = low % 2047;"),
    ("header", "plus 9E3779B9 hex", "plus 9E3779B8 hex"),
    ("header", "the word 24 back plus", "the word 31 back plus"),
    ("header", "from the 56th on", "from the 55th on"),
    ("header", "modulo (2,048 - low)", "modulo (2,047 - low)"),
    ("crate", "plus 9E3779B9 hex", "plus 9E3779B7 hex"),
    ("header", "uint32_t callplan_lent_read(", "uint64_t callplan_lent_read("),
    ("header", "uint32_t callplan_lent_write(const size_t *counts", "uint32_t callplan_lent_write(size_t *counts"),
    ("header", "uint32_t seed, size_t n, size_t m, size_t *counts", "uint32_t seed, size_t m, size_t n, size_t *counts"),
    ("header", "uint32_t callplan_lent_generate(uint32_t seed,", "uint32_t callplan_lent_generate(size_t seed,"),
    ("header", "size_t from, size_t to", "size_t to, size_t from"),
    ("header", "uint32_t low, uint32_t high);", "uint32_t low, uint16_t high);"),
    ("header", "uint16_t *walk, size_t walk_len,", "uint16_t *walk,"),
    ("header", "uint32_t callplan_lent_record(", "uint32_t callplan_lent_records("),
    ("header", "CALLPLAN_REFUSED_DURATION = 8", "CALLPLAN_REFUSED_DURATION = 7"),
    ("header", "CALLPLAN_REFUSED_LIST_FULL = 9", "CALLPLAN_REFUSED_FULL = 9"),
    ("header", "CALLPLAN_NO_CALLS = 254", "CALLPLAN_NO_CALLS = 253"),
    ("header", "CALLPLAN_CALL_JOIN = 1", "CALLPLAN_CALL_JOIN = 2"),
    ("header", "CALLPLAN_CALL_IMPORT = 4", "CALLPLAN_CALL_IMPORT = 5"),
    ("header", "CALLPLAN_CALL_TEAM = 5", "CALLPLAN_CALL_TEAM = 6"),
    ("header", "CALLPLAN_REFUSED_TEAM_NUMBER = 18", "CALLPLAN_REFUSED_TEAM_NUMBER = 19"),
    ("header", "CALLPLAN_MAX_TEAM 31", "CALLPLAN_MAX_TEAM 32"),
    ("header", "10 to 19    clinics", "10 to 20    clinics"),
    ("header", "30 to 31    outside lines", "30 to 31    lines"),
    ("header", "size_t state, uint32_t team);", "size_t state, uint8_t team);"),
    ("header", "uint32_t team, uint16_t *walk, size_t walk_len,", "uint16_t *walk, size_t walk_len, uint32_t team,"),
    ("header", "callplan_private_states(plan), 2 * CALLPLAN_MAX_STATES", "callplan_private_states(plan), CALLPLAN_MAX_STATES"),
    ("header", "callplan_private_const_states(plan), 2 * CALLPLAN_MAX_STATES", "callplan_private_states(plan), 2 * CALLPLAN_MAX_STATES"),
    ("header", "call(CALLPLAN_CONST_SLICES(plan), team, figure->walk, CALLPLAN_MAX_STATES, out, 4)", "call(CALLPLAN_CONST_SLICES(plan), team, figure->walk, CALLPLAN_MAX_STATES, out, 3)"),
    ("header", "const uint8_t *text, size_t text_len", "uint8_t *text, size_t text_len"),
    ("header", "CALLPLAN_REFUSED_START_COUNT = 14", "CALLPLAN_REFUSED_START_COUNT = 15"),
    ("header", "    CALLPLAN_REFUSED_START_COUNT = 14", "    CALLPLAN_REFUSED_FIGURE_SIZE = 13,\n    CALLPLAN_REFUSED_START_COUNT = 14"),
    ("header", "CALLPLAN_REFUSED_FROM_STATE = 16", "CALLPLAN_REFUSED_FROM_STATE = 7"),
    ("header", "CALLPLAN_REFUSED_TO_STATE = 17", "CALLPLAN_REFUSED_TO = 17"),
    ("header", "const size_t *arguments, size_t arguments_len,", "const size_t *arguments,"),
    ("header", "CALLPLAN_SLICES(plan), walks, 4 * CALLPLAN_MAX_STATES, out, 4 * 4)", "CALLPLAN_SLICES(plan), walks, 4, out, 4 * 4)"),
    ("header", "CALLPLAN_SHORT_SLICE = 255", "CALLPLAN_SHORT_SLICE = 254"),
    ("header", "CALLPLAN_ACCEPTED = 256", "CALLPLAN_ACCEPTED = 0"),
    ("header", "CALLPLAN_MAX_STATES 512", "CALLPLAN_MAX_STATES 511"),
    ("header", "CALLPLAN_MAX_TRANSITIONS 2048", "CALLPLAN_MAX_TRANSITIONS 2047"),
    ("header", "CALLPLAN_MAX_DURATION 2047", "CALLPLAN_MAX_DURATION 2048"),
    ("header", "CALLPLAN_OPEN_HIGH 2047", "CALLPLAN_OPEN_HIGH 2046"),
    ("header", "1,048,064 for the least", "1,047,552 for the least"),
    ("header", "counted states, at most 513", "counted states, at most 512"),
    ("crate", "1,047,552 for the greatest", "1,048,064 for the greatest"),
    ("header", "CALLPLAN_MAX_IMAGE_OCTETS 10756", "CALLPLAN_MAX_IMAGE_OCTETS 10755"),
    ("header", "CALLPLAN_MAX_TEXT_OCTETS 51221", "CALLPLAN_MAX_TEXT_OCTETS 51220"),
    ("header", "CALLPLAN_RECORD_OCTETS 11", "CALLPLAN_RECORD_OCTETS 16"),
    ("header", "CALLPLAN_START = 4", "CALLPLAN_START = 1"),
    ("header", "CALLPLAN_FINAL = 2", "CALLPLAN_FINAL = 3"),
    ("header", "CALLPLAN_COUNTED = 1", "CALLPLAN_COUNTED = 4"),
    ("header", "CALLPLAN_ENDLESS = 3", "CALLPLAN_ENDLESS = 4"),
    ("header", "(plan)->counts, 2", "(plan)->counts, 1"),
    ("header", "CALLPLAN_MAX_STATES, out, 4)", "CALLPLAN_MAX_STATES, out, 3)"),
    ("header", "uint16_t *walks, size_t walks_len", "uint16_t *walk, size_t walk_len"),
    ("header", "CALLPLAN_MAX_STATES, out, 4 * 4)", "CALLPLAN_MAX_STATES, out, 4)"),
    ("header", "CALLPLAN_GREATEST_DELAY = 1", "CALLPLAN_GREATEST_DELAY = 2"),
    ("header", 'CALLPLAN_VERSION "0', 'CALLPLAN_VERSION "1'),
    ("package", "Version: 0", "Version: 1"),
    ("cargo", 'version = "0', 'version = "1'),
    ("crate", "MAX_STATES: usize = 512", "MAX_STATES: usize = 1024"),
    ("crate", "MAX_TRANSITIONS: usize = 2048", "MAX_TRANSITIONS: usize = 1024"),
    ("crate", "MAX_IMAGE_OCTETS: usize = 10756", "MAX_IMAGE_OCTETS: usize = 10757"),
    ("crate", "MAX_TEAM: u32 = 31", "MAX_TEAM: u32 = 30"),
    ("crate", "OPEN_HIGH: u32 = 2047", "OPEN_HIGH: u32 = 2046"),
    ("crate", "MAX_TEXT_OCTETS: usize = 51221", "MAX_TEXT_OCTETS: usize = 51222"),
    ("crate", "ACCEPTED: u32 = 256", "ACCEPTED: u32 = 255"),
    ("crate", "FINAL: u32 = 2", "FINAL: u32 = 1"),
    ("archive", "fields: *mut u16", "fields: *mut u32"),
    ("archive", "octets: *const u8", "octets: *mut u8"),
    ("archive", "        seed: u32,\n", "        seed: u64,\n"),
    ("archive", "        number: usize,\n", ""),
    ("archive", "        team: u32,\n        walk: *mut u16,", "        team: u16,\n        walk: *mut u16,"),
    ("archive", "callplan_lent_least_delay(", "callplan_lent_delay("),
    ("refusals", "Refusal::SpareBits,\n        6,", "Refusal::SpareBits,\n        16,"),
    ("refusals", "    ListFull,", "    Full,"),
    ("refusals", "    FromState,\n", ""),
    ("refusals", "Refusal::ToState,\n        17,", "Refusal::ToState,\n        16,"),
    ("refusals", "    TeamNumber,\n", ""),
    ("refusals", "    NoCalls,\n", ""),
    ("refusals", '(Refusal::NoCalls, 254, "the slices', '(Refusal::NoCalls, 255, "the slices'),
    ("refusals", '254, "the slices are no list of calls"', '254, "there is no list of calls"'),
    ("replay", "    Unjoin = 2,", "    Unjoin = 3,"),
    ("replay", "#[repr(u8)]\n", "#[repr(u16)]\n"),
    ("refusals", '"a pad bit is set, or a spare bit of version 1"', '"a pad or spare bit is set"'),
    ("refusals", '(Refusal::TeamNumber, 18, "the team is above 31")', '(Refusal::TeamNumber, 18, "the team is above 30")'),
    ("header", 'return "the marks value is above 7"', 'return "the marks value is above 8"'),
    ("header", "a transition's to is not below the state count\"", "a transition's from is not below the state count\""),
    ("header", '    case CALLPLAN_ACCEPTED: return "accepted";\n', ""),
    ("header", "CALLPLAN_VERSION_NUMBER 9", "CALLPLAN_VERSION_NUMBER 8"),
    ("binding", "result ≡ 900 }", "result ≡ 901 }"),
    ("crate", "VERSION_NUMBER: u32 = 9", "VERSION_NUMBER: u32 = 8"),
    ("launch", "version=0", "version=1"),
    ("page", '"callplan 0', '"callplan 1'),
    ("import page", '"callplan 0', '"callplan 1'),
    ("generate page", '"callplan 0', '"callplan 1'),
    ("rules page", "| 16 | join", "| 18 | join"),
    ("rules page", "| 18 | team", "| 19 | team"),
    ("rules page", "| 1 to 9 | wards |", "| 1 to 10 | wards |"),
    ("changes", "## 0.9", "## 0.8"),
    ("proved", "value: u32,\n    ) -> u32", "value: u32,\n    ) -> u16"),
    ("proved", "walk_len: usize", "length: usize"),
    ("proved", "        seed: u32,\n        n: usize,\n        m: usize,", "        seed: u32,\n        n: usize,"),
    ("proved", "STATES: usize = 2 * MAX_STATES", "STATES: usize = MAX_STATES"),
    ("proved", "        state: usize,\n        team: u32,\n    ) -> u32", "        state: usize,\n        team: u8,\n    ) -> u32"),
    ("proved", "NO_CALLS: u32 = 254", "NO_CALLS: u32 = 253"),
    ("proved", "SHORT_SLICE: u32 = 255", "SHORT_SLICE: u32 = 254"),
    ("proved", "ACCEPTED: u32 = 256", "ACCEPTED: u32 = 257"),
]


def main():
    texts = {name: (ROOT / path).read_text(encoding="utf-8") for name, path in FILES.items()}
    passed, wrong = compare(texts)
    failed = len(wrong)
    for what, source, found in wrong:
        print(f"{what}\n    source: {source}\n    found:  {found}")

    for name, old, new in DAMAGES:
        damaged = dict(texts, **{name: texts[name].replace(old, new, 1)})
        if old in texts[name] and compare(damaged)[1] != wrong:
            passed += 1
        else:
            failed += 1
            print(f"{FILES[name]}: not noticed: {new!r} in the place of {old!r}")
    for name in FILES:
        if name not in [damage[0] for damage in DAMAGES]:
            failed += 1
            print(f"{FILES[name]}: no damage is tried")

    print(f"{passed} passed, {failed} failed")
    return 0 if failed == 0 else 1


if __name__ == "__main__":
    sys.exit(main())

#!/usr/bin/env python3
"""Counts the places of docs/DESIGN-PASS.md: forms of code and of proofs that today's language has a shorter one for.

    python3 scripts/forms.py 67264501          # of a commit: each kind, its point, and how many places; of the tree where no commit is named
    python3 scripts/forms.py 67264501 loops    # the places of one kind, a line each

The code of crates/*/src/*.rt is counted without comments and contracts. A kind is a pattern over that, or functions by name, or computed: functions alike but
for names, types and numbers; parameters that stand together; conditions of three or more contracts. Of proofs, the answers of Answers.antt are counted.
"""
import difflib
import re
import subprocess
import sys
from collections import defaultdict
from functools import lru_cache
from pathlib import Path

ROOT = Path(__file__).resolve().parent.parent
WORDS = set("fn let mut if else while for in match return true false self impl struct enum as const loop break continue ref use mod".split())
TOKEN = re.compile(r"""[A-Za-z_]\w*|\d\w*|b?'(?:\\.|[^'])'|b?"[^"]*"|::|=>|->|[<>=!+\-*/|&]=|&&|\|\||\.\.|\S""")
FUNCTION = re.compile(r'^( *)(?:pub(?:\(crate\))? )?(?:extern "C" )?fn (\w+)', re.M)
ALIKE = 0.93  # how much of two functions is the same where they are near twins
LONG = 30  # tokens of a function that is compared for that

# Patterns over code: point, kind, pattern.
PATTERNS = [
    (1, "own_results", r"enum \w+ \{[^}]*\b(?:Refused|Broken|Nowhere|Nothing|Missing)\b"),
    (1, "returned_on", r"if let \w+::Refused\((\w+)\) = [^;]*?\{\s*return \w+::Refused\(\1\);"),
    (1, "passing_arms", r"\w+::(?:Refused|Broken)\((\w+)\) =>\s*(?:return )?\w+::(?:Refused|Broken)\((?:Refusal::Line\()?\1\)"),
    (1, "let_else", r"let \w+::\w+\([^)]*\) = [^;{]* else \{"),
    (1, "kinds_as_numbers", r"\boperation (?:==|<) \d+|match (?:way|part|third|k [%/] 5) "),
    (1, "kinds_as_flags", r"\b(?:raising|ranked|steps|stepped|text): bool"),
    (1, "tests_of_answers", r"if let \w+::\w+(?:\(_\))? = "),
    (3, "loops", r"^ *while "),
    (4, "casts", r" as (?:u8|u16|u32|u64|usize)\b"),
    (4, "truth_as_number", r"if [^{};]*\{\s*(?:1\s*\} else \{\s*0|0\s*\} else \{\s*1)\s*\}"),
    (4, "both_and_either", r"(?<!fn )\b(?:both|either)\("),
    (4, "wrapping_functions", r"std::num::wrapping_\w+"),
    (6, "array_parameters", r"(?<!pub )\b\w+: (?:&(?:mut )?)?\[u\d+; (?:20|1024|1093|1100)\](?=[,)])"),
    (6, "array_fields", r"^    pub \w+: \[u\d+; \d+\]"),
    (6, "blank_arrays", r"let (?:mut )?\w+(?:: \[u\d+; \d+\])? = \[(?:0|65535|false)(?:u\d+)?; \d+\]"),
    (7, "steps_by_number", r"if operation (?:==|<) \d+"),
    (7, "steps_by_side", r"match side \{"),
    (7, "steps_by_flag", r"\bif (?:raising|ranked|steps|stepped|text) \{"),
    (7, "steps_by_way", r"match (?:way|part|third|k [%/] 5) "),
]

# Functions: point, kind, crate and file, names.
NAMES = [
    (1, "none_as_number", "numerals/numbers", "digit_at"),
    (1, "none_as_number", "cell_scans/cells", "mark_at"),
    (1, "none_as_number", "occurrences/places", "place_of"),
    (1, "none_as_number", "closings/oldest", "oldest_cell"),
    (1, "none_as_number", "columns/reading", "next_column"),
    (1, "none_as_number", "taken_cells/first", "cell_of_number cell_of_letter"),
    (1, "none_as_number", "notation/fields", "place_of name_of"),
    (1, "none_as_number", "notation/lists", "in_list meant in_group in_text in_either"),
    (1, "none_as_number", "brute/scanning", "leftmost rightmost plain_times first_difference"),
    (1, "none_as_number", "brute/partners", "step_place"),
    (1, "refusal_as_number", "brute/kernel", "elements wrong_used"),
    (1, "refusal_as_number", "brute/moving", "times_in with_reply"),
    (1, "refusal_as_number", "brute/numbered", "number_in"),
    (1, "refusal_as_number", "brute/two_words", "class_in weights_in"),
    (1, "refusal_as_number", "brute/answers", "junctions_of"),
    (1, "refusal_as_number", "brute/scanning", "unmoved with_letter plain_move"),
    (1, "refusal_as_number", "outputs/answer", "print_refusal print_refused print_line"),
    (1, "refusal_as_number", "outputs/printing", "print_pair print_reading print_junctions print_word"),
    (4, "smaller_and_larger", "refusals/numbers", "least"),
    (4, "smaller_and_larger", "numerals/numbers", "within"),
    (4, "smaller_and_larger", "acceptance/letters", "smaller larger"),
    (4, "smaller_and_larger", "line_sizes/sizes", "limited"),
    (4, "widened", "acceptance/letters", "wide"),
    (4, "widened", "counts/blocks", "wide"),
    (4, "widened", "counts/tally", "place_of"),
    (4, "widened", "fillings/tableau", "wide"),
    (4, "widened", "notation/fields", "wide"),
    (4, "widened", "notation/printing", "wider"),
    (4, "widened", "recordings/recording", "wide"),
    (4, "widened", "scans/line", "wide"),
    (4, "widened", "tableaux/changed_counts", "wide"),
    (4, "widened", "writers/items", "number"),
    (4, "equality", "classes/tables", "same_counts"),
    (4, "equality", "stored_tableaux/marks", "same_marks"),
    (4, "equality", "brute/comparing", "unlike_cells unlike_counts differences"),
    (4, "copies", "buffers/copies", "copy_bytes copy_entries"),
    (4, "copies", "buffers/pulls", "pull_bytes pull_entries"),
    (4, "copies", "class_numbers/ribbon", "held"),
    (4, "copies", "fillings/runs", "fill"),
    (4, "copies", "line_items/room", "no_letters no_marks"),
    (4, "copies", "operations/main", "room"),
    (4, "conversions", "acceptance/bytes", "narrow"),
    (4, "conversions", "acceptance/letters", "letters_verdict"),
    (4, "conversions", "counts/check", "counts_verdict"),
    (4, "conversions", "shapes/marks", "marks_verdict"),
    (4, "conversions", "shapes/rising", "rising_verdict"),
    (4, "conversions", "second_inputs/counting", "counted_on"),
    (4, "conversions", "operators/changes", "as_target"),
    (4, "conversions", "run_conversions/forms", "as_written"),
    (4, "conversions", "conversions/former", "break_of"),
    (4, "conversions", "refusals/refusal", "number_and_place"),
    (4, "conversions", "structs/comparisons", "classed class_refused class_reply ordered order_refused order_reply"),
    (4, "conversions", "structs/converters", "move_refused move_reply junction_refused junction_reply value_refused value_reply cell_refused cell_reply"),
    (4, "conversions", "structs/counts", "done_refused done_verdict counted count_refused count_written count_used count_repeat"),
    (4, "conversions", "structs/readings", "lined line_refused refused_reading line_reply"),
    (4, "conversions", "brute/moving", "side_of"),
    (4, "printing", "notation/answers", "print_success print_gives print_gives_two print_gives_three print_refusal print_move print_numbered print_repeat"),
    (4, "printing", "notation/answers", "print_written print_used print_junctions print_read print_cell print_class print_weights print_verdict"),
    (4, "printing", "notation/printing", "print print_byte print_mark print_number"),
]

# Parameters that stand together: kind, names.
TOGETHER = [
    ("tableau", "rank letters marks"),
    ("counted_tableau", "rank letters marks counts"),
    ("pair", "letters marks entries"),
    ("counted_pair", "rank letters marks entries counts"),
    ("used_pair", "used letters marks entries"),
    ("word", "rank word"),
    ("two_words", "first_rank first second_rank second"),
    ("two_tableaux", "first_letters first_marks second_letters second_marks"),
    ("move", "side index"),
    ("text_at", "text at"),
    ("table_line", "kinds line"),
    ("marks_up_to", "marks cells"),
    ("either_list", "bytes entries count"),
]


class Tree:
    """The files of a commit, or of the tree as it stands."""

    def __init__(self, commit):
        self.commit = commit

    @lru_cache(None)
    def files(self, form):
        """Path and text of each file below crates/ whose path has a form."""
        listed = git(*(["ls-tree", "-r", "--name-only", self.commit] if self.commit else ["ls-files", "-co", "--exclude-standard"]), "crates")
        paths = [path for path in sorted(listed.split("\n")) if re.fullmatch(form, path) and (self.commit or (ROOT / path).exists())]
        return [(path, git("show", f"{self.commit}:{path}") if self.commit else (ROOT / path).read_text()) for path in paths]

    def sources(self):
        return self.files(r"crates/\w+/src/.*\.rt")

    def answers(self):
        return self.files(r"crates/\w+/proofs/(?:.*/)?Answers\.antt")


def git(*words):
    return subprocess.run(["git", "-C", ROOT, *words], capture_output=True, text=True, check=True).stdout


def end_of(text, place):
    """The place after the bracket that closes the one before a place."""
    open_ones = 1
    while open_ones:
        open_ones += (text[place] in "([{") - (text[place] in ")]}")
        place += 1
    return place


def parts_of(text, mark):
    """A text cut at a mark outside brackets."""
    found, open_ones = [""], 0
    for letter in text:
        open_ones += (letter in "([{") - (letter in ")]}")
        found = [*found, ""] if letter == mark and not open_ones else [*found[:-1], found[-1] + letter]
    return [part.strip() for part in found if part.strip()]


def conditions(text):
    for part in parts_of(text, "×"):
        yield from conditions(part[1:-1]) if part[0] == "(" and end_of(part, 1) == len(part) else [part]


def blanked(text):
    """Text without anything but its line ends."""
    return re.sub(r"[^\n]", " ", text)


@lru_cache(None)
def code_of(text):
    """A file without comments, imports for contracts and contracts; lines and places stay."""
    text = re.sub(r"^ *(?://|ghost use ).*$", lambda found: blanked(found.group()), text, flags=re.M)
    for found in reversed(list(re.finditer(r"^ *(?:requires|ensures)\b[^{]*\{", text, re.M))):
        end = end_of(text, found.end())
        text = text[:found.start()] + blanked(text[found.start():end]) + text[end:]
    return text


class Function:
    def __init__(self, path, text, found):
        self.path, self.name = path, found.group(2)
        self.line = text.count("\n", 0, found.start()) + 1
        begin = text.index("(", found.end()) + 1
        end = end_of(text, begin)
        self.parameters = [re.sub(r"^mut ", "", part.split(":")[0].strip()) for part in parts_of(text[begin:end - 1], ",")]
        self.answer, self.required = re.match(r"[^{]*?(?=\b(?:requires|ensures)\b|\{|$)", text[end:]).group(), []
        clause = re.compile(r"[^{]*?\b(requires|ensures)\b[^{]*\{")
        while told := clause.match(text, end):
            end = end_of(text, told.end())
            if told.group(1) == "requires":
                self.required += conditions(" ".join(text[told.end():end - 1].split()))
        end = end_of(text, text.index("{", end) + 1)
        self.form = masked(code_of(text)[found.end():end])

    def place(self):
        return f"{self.path}:{self.line}: {self.name}"


def masked(code):
    """The tokens of a function in which names are numbered as they come, and types of numbers, numbers and texts stand for each other."""
    names = {}

    def mask(token):
        if token in WORDS:
            return token
        if re.fullmatch(r"u8|u16|u32|u64|usize", token):
            return "type"
        if re.match(r"\d|b?['\"]", token):
            return "value"
        return f"name {names.setdefault(token, len(names))}" if re.match(r"[A-Za-z_]", token) else token

    return tuple(mask(token) for token in TOKEN.findall(code))


@lru_cache(None)
def functions(tree):
    plain = [(path, re.sub(r"//.*", lambda words: blanked(words.group()), text)) for path, text in tree.sources()]
    return [Function(path, text, found) for path, text in plain for found in FUNCTION.finditer(text)]


def by_pattern(tree, pattern):
    for path, text in tree.sources():
        code = code_of(text)
        for found in re.finditer(pattern, code, re.M):
            line = code.count("\n", 0, found.start() + len(found.group()) - len(found.group().lstrip())) + 1
            yield f"{path}:{line}: {' '.join(found.group().split())}"


def by_name(tree, kind, file, names):
    """Functions by name; where a number stands for none or a refusal, those that answer no Option and no Result."""
    path = "crates/" + file.replace("/", "/src/") + ".rt"
    found = [function for function in functions(tree) if function.path == path and function.name in names.split()]
    return [function.place() for function in found if not (kind.endswith("_as_number") and re.search(r"\b(?:Option|Result)<", function.answer))]


def loops(tree, begin, step, leaving=r""):
    """Loops whose condition and body have a form, the second with the counter of the first."""
    for path, text in tree.sources():
        code = code_of(text)
        for found in re.finditer(r"^( *)while (.*) \{\n((?:.*\n)*?)\1\}", code, re.M):
            counter = re.match(begin, found.group(2))
            if counter and re.search(step.replace("COUNTER", counter.group(1)), found.group(3)) and re.search(leaving, found.group(3)):
                yield f"{path}:{code.count(chr(10), 0, found.start()) + 1}: while {found.group(2)}"


def forms(tree):
    """Functions by their form: those of one are alike but for names, types of numbers, numbers and texts."""
    groups = defaultdict(list)
    for function in functions(tree):
        groups[function.form].append(function)
    return groups


def short(path):
    return path[7:].replace("/src", "")[:-3]


def same_form(tree, exported):
    for group in forms(tree).values():
        if len(group) > 1 and all(one.path.startswith("crates/capi/") for one in group) == exported:
            yield ", ".join(f"{short(one.path)} {one.name}" for one in group)


def same_types(tree):
    """Structs and enums that are alike but for names."""
    groups = defaultdict(list)
    for path, text in tree.sources():
        for found in re.finditer(r"(?:struct|enum) (\w+) \{\n(?:.*\n)*?\}", code_of(text)):
            groups[masked(found.group())].append(f"{short(path)} {found.group(1)}")
    return [", ".join(group) for group in groups.values() if len(group) > 1]


def near_form(tree):
    """Pairs of functions that are nearly so, of two that are not in one group."""
    firsts = [(form, group[0]) for form, group in forms(tree).items() if len(form) >= LONG and not group[0].path.startswith("crates/capi/")]
    for place, (form, one) in enumerate(firsts):
        for other_form, other in firsts[:place]:
            if min(len(form), len(other_form)) < 0.85 * max(len(form), len(other_form)):
                continue
            compared = difflib.SequenceMatcher(None, form, other_form, autojunk=False)
            if compared.quick_ratio() >= ALIKE and compared.ratio() >= ALIKE:
                yield f"{compared.ratio():.2f}: {other.place()}, {one.place()}"


def together(tree, names):
    return [one.place() for one in functions(tree) if set(names.split()) <= set(one.parameters)]


def required(tree):
    """Conditions that three or more functions ask for."""
    found = defaultdict(list)
    for function in functions(tree):
        for condition in function.required:
            found[condition].append(f"{function.path.split('/')[1]} {function.name}")
    for condition, names in sorted(found.items(), key=lambda told: -len(told[1])):
        if len(names) > 2:
            yield f"{len(names)} times: {condition}: {', '.join(names)}"


def answered(tree, form):
    """Answers of proofs whose text has a form."""
    for path, text in tree.answers():
        for found in re.finditer(r"^pub (\S+) : goal\.\S+\n(?:(?!pub |--).*\n?)*", text, re.M):
            told = " ".join(found.group().split(" = ", 1)[-1].split()) if " = " in found.group() else " ".join(found.group().split("=", 1)[1].split())
            if re.fullmatch(form, told):
                yield f"{path}: {found.group(1)} = {told}"


def files_by_rules(tree):
    """Files of answers in which each is what the check tries without them."""
    for path, text in tree.answers():
        told = re.findall(r"^pub \S+ : goal\.\S+\n\S+ c = (.*)$", text, re.M)
        if set(told) == {"search rules"} and len(told) == len(re.findall(r"^pub ", text, re.M)):
            yield path


def kept(tree):
    for path, text in tree.sources():
        for number, line in enumerate(text.split("\n")):
            if re.match(r" *// Kept: ", line):
                yield f"{path}:{number + 1}: {line.strip()}"


def kinds(tree):
    """Each kind: its point, its name, and what finds its places."""
    for point, kind, pattern in PATTERNS:
        yield point, kind, lambda pattern=pattern: by_pattern(tree, pattern)
    for point, kind in dict.fromkeys(row[:2] for row in NAMES):
        yield point, kind, lambda kind=kind: [place for _, own, file, names in NAMES if own == kind for place in by_name(tree, kind, file, names)]
    yield 2, "same_form", lambda: same_form(tree, False)
    yield 2, "same_form_in_c", lambda: same_form(tree, True)
    yield 2, "near_form", lambda: near_form(tree)
    yield 2, "same_types", lambda: same_types(tree)
    yield 3, "loops_up", lambda: loops(tree, r"(\w+)(?: \+ \d)? < ", r"\bCOUNTER \+= \d;")
    yield 3, "loops_up_leaving", lambda: loops(tree, r"(\w+)(?: \+ \d)? < ", r"\bCOUNTER \+= \d;", r"\breturn\b")
    yield 3, "loops_down", lambda: loops(tree, r"\d+ <=? (\w+)", r"\bCOUNTER (?:-= 1|= COUNTER / 10);")
    for kind, names in TOGETHER:
        yield 5, kind, lambda names=names: together(tree, names)
    yield 5, "required", lambda: required(tree)
    yield 8, "by_rules", lambda: answered(tree, "search rules")
    yield 8, "by_ruleset", lambda: answered(tree, r"search (?!rules$)[\w'-]+")
    yield 8, "files_by_rules", lambda: files_by_rules(tree)
    yield 8, "by_hand", lambda: answered(tree, r"(?!search [\w'-]+$).*")
    yield 0, "kept", lambda: kept(tree)


def main():
    named = [word for word in sys.argv[1:] if re.fullmatch(r"[0-9a-f]{7,40}|HEAD\S*|origin/\S+", word)]
    tree = Tree(named[0] if named else None)
    asked = [word for word in sys.argv[1:] if word not in named]
    for point, kind, places in sorted(kinds(tree), key=lambda told: (told[0] or 9, told[1])):
        if not asked:
            print(f"{point or '-'}  {kind:<20} {len(list(places())):>5}")
        elif kind in asked:
            print("\n".join(places()))


if __name__ == "__main__":
    main()

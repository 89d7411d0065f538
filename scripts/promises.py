"""Holds docs/PROMISES.md and docs/promises/*.md to the tree, for scripts/pages.py.

A row has one file, in its last cell. Of an operation: functions of that file, their refusals, definitions that each contract cites. Of a theorem: public
theorems of that file, and after a colon definitions that each type cites; those REQUIRED have a row. A definition is declared in that file or in one that
the section names. Nothing has two rows. A name in code under "Ruled out" is an edit, by its crate, and each edit is named once. docs/PROMISES.md leads to
every page.
"""
import re

import header
from page_texts import CRATES, PROMISES, code, find, paths, promises, prose, rows, search, sections

# Programs, and what only they use: no promise of theirs has a row.
PROGRAMS = {
    "ribbon", "cases", "operations", "brute", "notation", "plain_words",
}
# How a name stands in a text; a function with its contract, if it has one; what is converted into a type, with its contract; a theorem with its type; how a definition is declared.
STANDS = r"(?<![\w'-])NAME(?![\w'-])"
FUNCTION = r"\bfn NAME\b(?:[^{]*?\bensures)?(.*?)(?:^ *| )\{$"
CONVERSION = r"^impl From<[^{]*> for NAME \{\n *ghost from_gives = \{(.*?)\};$"
THEOREM = r"^ *pub NAME :(.*?)^ *(?:unfolding|NAME) "
DECLARED = r"\b(fn|struct|enum) NAME\b|^ *pub NAME:|^ *(abbrev |unfoldable )?(pub )?((record|data) )?NAME [:({]"
REQUIRED = """
    classes written_classes word_of_pair pair_of_word word_reading read_back class_joined tableau_answer repeat_word_lem starred outputs
    product_of_classes stepped_weights word_moved_at changed_cell move_together class_size_lem class_word_lem class_number_lem class_members
    class_complete class_later number_recording recording_number theorem_8_2 ranks written_ranks counts-held seventeen_exactly
    class_as_readings weights_as_readings halves convert_lines convert_program convert_sound convert_broken_only
    former_program former_halves recording_written window-after window_accepted accepted_afresh judged_holds departure_afresh
    arrival_afresh departure_said arrival_said full_until_left departs judged_as_insertion run_classes run_written_classes run_ranks
    run-written_ranks run_passing runs-scan tableau_line_back run_line_back c_broken c_determined c_complete c_sound c_breaks c_length
""".split()
EDITS = [f"{edit.parts[-3]}/{edit.stem}" for edit in CRATES.glob("*/must-fail/*.edit")]
HEADER = header.functions_of(None)
EXPORTED = ["luchtrav_" + name for name in HEADER]
RENAMED = {"look": "look_once", "write_refusal_line": "write_returned_line"}  # what the header calls otherwise than the kernel
NUMBERS = r"\d+(?:,? (?:to |and )?\d+)*"  # as in: 14, 1 to 6, 13


def claims(row):
    """What a row is about: functions, types that are converted into, or theorems, each with the form of its declaration and the definitions that it cites."""
    if len(row) == 4:
        return [(name, CONVERSION if name[0].isupper() else FUNCTION, code(row[2])) for name in code(row[0].split(":")[0])]
    parts = [part.partition(":") for part in row[1].split(";")]
    return [(name, THEOREM, code(cited)) for names, _, cited in parts for name in code(names)]


def all_rows():
    return [(page, row) for page in promises() for row in rows(prose(page))]


def check_rows():
    had = []
    for page in promises():
        for own, context in sections(page):
            near = [file for path in paths(re.sub(r"^\|.*", "", context, flags=re.M)) for file in find(path, page, context) if file.is_file()]
            for row in rows(own):
                files = [file for path in paths(row[-1]) for file in find(path, page, context)]
                if len(files) != 1 or not claims(row):
                    yield page, f"a row has names in code and one file, this has {len(files)}: {row}"
                    continue
                texts = [file.read_text() for file in files + near]
                for name, form, cited in claims(row):
                    yield from ((page, f"{fault}: {row}") for fault in row_faults(name, form, cited, texts))
                    if (name, files) in had:
                        yield page, f"{name} has two rows: {row}"
                    had.append((name, files))
    told = {name for _, row in all_rows() for name, form, _ in claims(row) if form == THEOREM}
    yield from ((PROMISES, "theorem without a row: " + name) for name in REQUIRED if name not in told)


def row_faults(name, form, cited, texts):
    """What is wrong with one name of a row; the first text is the row's file, the others are those that its section names."""
    declared = search(form, name, texts[0])
    if not declared:
        yield f"{name} is not declared in the row's file"
    for definition in cited if declared else []:
        alias = search(r"\bNAME as (\w+)", definition, texts[0])
        if not search(STANDS, alias.group(1) if alias else definition, declared.group(1)):
            yield f"{name} does not cite {definition}"
        if not any(search(DECLARED, definition, text) for text in texts):
            yield f"{definition} is declared in no file that row or section names"


def numbers(text):
    return [number for low, high in re.findall(r"(\d+)(?: to (\d+))?", text) for number in range(int(low), int(high or low) + 1)]


def listed():
    """The refusals that specs/ of outcomes, products, numbering, letter_counts, former_lines, windows and run_lines list for definitions: in headers, for a
    reply with and without memory; in comments above judgements."""
    specs, found, told = CRATES / "outcomes/specs", {}, ""
    products, classes = CRATES / "products/specs/Products.antt", CRATES / "numbering/specs/Operations.antt"
    tableaux, former = CRATES / "letter_counts/specs/TwoTableaux.antt", CRATES / "former_lines/specs/Conversion.antt"
    windows, runs = CRATES / "windows/specs/Departures.antt", CRATES / "run_lines/specs/Operations.antt"
    for file in (*specs.glob("*Operations.antt"), specs / "LineReadings.antt", products, classes, tableaux, former, windows, runs):
        for names, checks in re.findall(rf"^--     (\w+(?:, \w+)*) {{2,}}({NUMBERS})", file.read_text(), re.M):
            found.update((re.sub("_(says|run)$", end, name), numbers(checks)) for name in names.split(", ") for end in ("_says", "_run"))
    for file in (specs / "Judgements.antt", specs / "Counts.antt", classes):
        for comment, name in re.findall(rf"^-- ({NUMBERS})|\bpub (\w+_(?:judged|judgements)) :", file.read_text(), re.M):
            told = comment or told
            found[name] = numbers(told)
    found["read_t_run"].remove(3)  # a T line has as many letters as marks
    found["tableau_to_runs_run"].remove(3)
    found["read_p_run"].remove(3)  # and a P line as many entries
    return found


def check_refusals():
    """The refusals of a row are those that are listed for its definitions, and those of the header's function of that name."""
    known, told = listed(), {}
    for page, row in [(page, row) for page, row in all_rows() if len(row) == 4]:
        told.update((name, numbers(row[1])) for name, _, _ in claims(row))
        lists = [known[definition] for definition in code(row[2]) if definition in known]
        if lists and numbers(row[1]) != sum(lists, []):
            yield page, f"refusals other than {sum(lists, [])}: {row}"
    for name, function in HEADER.items():
        if told.get(RENAMED.get(name, name)) != function.refusals:
            yield PROMISES, f"refusals of {name} other than the header's {function.refusals}"


def check_edits():
    named = [(page, name) for page in promises() for own, _ in sections(page) if own.startswith("## Ruled out\n") for name in code(own)]
    names = [name for _, name in named]
    yield from ((page, "no edit: " + name) for page, name in named if name not in EDITS)
    yield from ((page, "edit named twice: " + name) for page, name in named if names.count(name) > 1)
    yield from ((PROMISES, "edit not named: " + name) for name in sorted(set(EDITS) - set(names)))


def functions():
    """The public functions of the kernel, each with the names of its arguments."""
    texts = [file.read_text() for file in CRATES.glob("*/src/*.rt") if file.parts[-3] not in PROGRAMS]
    found = [call for text in texts for call in re.findall(r'^ *pub (?:extern "C" )?fn (\w+)(?:<(?:[^<>]|->)*>)?\(([^)]*)\)', text, re.M)]
    return {name: ", ".join(re.findall(r"(\w+):", taken)) for name, taken in found}


def check_functions():
    """Each function has a row, and is called with its arguments: but the header's, those that take an answer, and lowering, which is as raising."""
    takes, calls = functions(), [(page, *call) for page in promises() for call in re.findall(r"`([a-z]\w+)\(([^`]*)\)`", prose(page))]
    had = {name for _, row in all_rows() for name, form, _ in claims(row) if form == FUNCTION}
    yield from ((PROMISES, "function without a row: " + name) for name in sorted({*takes, *EXPORTED} - had))
    yield from ((page, f"no such call: {name}({shown})") for page, name, shown in calls if takes.get(name) != " ".join(shown.split()))
    called = {*EXPORTED, *(word for _, name, _ in calls for word in (name, name.replace("raise", "lower")))}
    yield from ((PROMISES, "function without a call: " + name) for name, taken in takes.items() if taken != "answer" and name not in called)


def check_promise_pages():
    """docs/PROMISES.md leads to each page, and no line is too long, but one that is quoted."""
    for page in promises():
        lines = page.read_text().splitlines()
        quoted = {line for block in re.findall(r"^```\S* \S+\n(.*?)^```$", page.read_text(), re.M | re.S) for line in block.split("\n")}
        if page != PROMISES and f"](promises/{page.name})" not in prose(PROMISES):
            yield PROMISES, "a page without a link: " + page.name
        yield from ((page, f"line {place} is longer than 140 characters") for place, line in enumerate(lines, 1) if len(line) > 140 and line not in quoted)

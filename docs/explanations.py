#!/usr/bin/env python3
"""The explanations of faults and of warnings that `c25 explain` prints, made of docs/FAULTS.md and docs/WARNINGS.md, where their text
stands.

usage: python3 docs/explanations.py [--write | --check]     (from the top of the repository)

It prints the explanation of each fault, of each end of a run and of each warning. --write puts the explanations into
crates/c25_explain/src, a file for each group of faults of the page and one for the ends of runs, and those of warnings into
crates/c25_warning_pages/src; --check names each of these files that is missing or differs from what
--write would write, and ends with status 1 where there is one.

An explanation is the fault's heading, as `53 FieldRange`, and what its section has, in three parts:

- the meaning: the text before the first example, or before the advice where there is no example;
- the example: the first one of the section, which is the smallest: the input and the line that is reported, each indented by four
  blanks. The other examples, and the blocks of lines that give the same fault, are on the page only: a reader at a terminal wants one
  case that can be seen at once;
- the advice: the text after the examples. Its last paragraph begins with `Do:`. Before that paragraph stands a table of the causes of the
  fault whose own text says `Write ..`: the heading of each, and what to write.

A fault that comes of several mistakes has a heading of the fourth level for each, its cause, with the smallest example and what to do, after
the general text. These parts are on the page only, but for that table.

The end of a run that leaves the code, as OutOfCode, has no number: its explanation is its name, the paragraph of the page that begins
with it, and the example after that.

The explanation of a warning is its name and what its section has, in the same three parts; the inputs for which nothing is printed are
on the page only.

Paragraphs are printed in lines of at most 100 columns, without the marks of links, and without the backquotes of code that has a
letter or a digit. Code of signs alone, as `;`, keeps its backquotes, since nothing else would separate it from the sentence. Tables
have a line for each row, indented by four blanks. Paragraphs, tables and parts have an empty line between them.
"""
import os
import re
import sys
import textwrap

PAGE, FOLDER = "docs/FAULTS.md", "crates/c25_explain/src"
COLUMNS, INDENT = 100, "    "
# For each group of the page that has faults: its file, and the variant of `AnyFault`, the crate and the type of its faults.
GROUPS = {
    "A line of a source": ("source_lines", "Source", "c25_meaning_language", "statement.FaultKind"),
    "Macros, conditional lines, loops, copied files": ("expansion", "Source", "c25_meaning_language", "statement.FaultKind"),
    "Command file": ("command_file", "Command", "c25_meaning_linking", "command_fault.CommandFault"),
    "Linking": ("linking", "Link", "c25_meaning_linking", "link_fault.LinkFault"),
    "Samples, schedule, script": ("run_files", None, None, None),
    "Objects": ("objects", "Object", "c25_meaning_objects", "object.ObjectFault"),
    "Maps and hex texts": ("written_texts", "Hex", "c25_hex", "hex_fault.HexFault"),
    "Images": ("images", None, None, None),
    "Files and memory": ("files", "File", "c25_disk", "fault.FileFault"),
}
ENDS = ("What is not a fault", "run_end_texts")  # the group that has the ends of runs, and their file
WARNINGS, WARNINGS_FILE = "docs/WARNINGS.md", "crates/c25_warning_pages/src/texts.rt"
# For each group of the page of warnings: the crate, the type, and the file and the definition of the names of its warnings.
WARNING_GROUPS = {
    "A line of a source": ("line", "c25_line_warnings", "warning_kind.WarningKind", "Names", "warning_name"),
    "A command file": ("section", "c25_warnings", "warning.LinkWarningKind", "Names", "link_warning_name"),
    "Data pages": ("page", "c25_page_reports", "warning.PageWarningKind", "Warnings", "page_warning_name"),
}
# The faults that are variants of `AnyFault` themselves.
ALONE = {"NoMemory": "Memory", "BadMap": "Map", "PastRom": "Rom", "BadSchedule": "Schedule", "BadSamples": "Samples", "BadCommand": "Script",
         "BadHint": "Hint", "OddLength": "OddLength", "LengthsDiffer": "LengthsDiffer", "TooLong": "TooLong", "TooManySections": "TooManySections"}


def text_of(path):
    with open(path, encoding="utf-8") as file:
        return file.read()


def sections(text, mark):
    """The headings of a level with the text under each."""
    for part in re.split(rf"(?m)^{mark} ", text)[1:]:
        heading, _, body = part.partition("\n")
        yield heading, body


def plain(text):
    """A text without the marks of links, and without the backquotes of code that has a letter or a digit."""
    text = re.sub(r"\[([^]]*)\]\([^)]*\)", r"\1", text)
    return re.sub(r"`([^`]*)`", lambda code: code[1] if re.search(r"[A-Za-z0-9]", code[1]) else code[0], text)


def indented(lines):
    return "\n".join((INDENT + line).rstrip() for line in lines)


def rows_text(rows):
    """Rows of cells, a line each."""
    return "\n".join(textwrap.fill(" | ".join(plain(cell).strip() for cell in row), COLUMNS, initial_indent=INDENT, subsequent_indent=2 * INDENT) for row in rows)


def table(lines):
    """A table, without the line below its headings."""
    return rows_text([line.strip().strip("|").split("|") for line in lines if not line.startswith("|--")])


def paragraph_text(paragraph):
    """A paragraph or a table."""
    if paragraph.startswith("|"):
        return table(paragraph.splitlines())
    return textwrap.fill(plain(" ".join(paragraph.split("\n"))), COLUMNS, break_long_words=False, break_on_hyphens=False)


def causes(body):
    """The table of the causes of a fault that say what to write, as paragraphs: one, or none where there is no such cause."""
    rows = [("Where there is", "Write")]
    for heading, section in sections(body, "####"):
        told = re.search(r"(?m)^Write (.*)\.$", section)
        if told:
            rows.append((heading if heading.startswith("`") else heading[0].lower() + heading[1:], told[1]))
    return [rows_text(rows)] if len(rows) > 1 else []


def parts(body):
    """The meaning, the example and the advice of a section; an example may be empty."""
    meaning, example, advice = [], [], []
    general = body.partition("\n#### ")[0]
    for fence, block, paragraph in re.findall(r"(?ms)^```(\w+)[^\n]*\n(.*?)^```$|((?:^(?!```)[^\n]+\n)+)", general):
        label = {"given": "Given:", "reported": "Reported:"}.get(fence)
        if label and label not in example:
            example += [label, indented(block.splitlines())]
        elif paragraph:
            is_advice = example or advice or paragraph.startswith("Do:")
            (advice if is_advice else meaning).append(paragraph_text(paragraph))
    advice[-1:-1] = causes(body)
    return ["\n\n".join(part) + "\n" if part else "" for part in (meaning, example, advice)]


def summary(meaning):
    """The first sentence of a meaning, in one line, as the list of all faults has it."""
    paragraph = " ".join(meaning.partition("\n\n")[0].split())
    return re.match(r".*?\.(?=\s|$)", paragraph)[0]


def explanations():
    """For each group that has faults: their headings and the parts of their explanations."""
    for title, body in sections(text_of(PAGE), "##"):
        faults = {heading: parts(section) for heading, section in sections(body, "###")}
        if faults:
            yield title, faults


def ends():
    """The ends of runs: their names with the meaning and the example."""
    body = dict(sections(text_of(PAGE), "##"))[ENDS[0]]
    for name, text in re.findall(r"(?ms)^`(\w+)`: (.*?)(?=^`\w+`: |\Z)", body):
        meaning, example, _ = parts(text[0].upper() + text[1:])
        yield name, meaning, example


def warnings():
    """For each group of warnings: their names and the parts of their explanations."""
    for title, body in sections(text_of(WARNINGS), "##"):
        yield title, {heading: parts(section) for heading, section in sections(body, "###")}


def whole(heading, parts_of_it):
    """What `c25 explain` prints."""
    return "\n".join([heading + "\n", *(part for part in parts_of_it if part)])


def literal(text):
    """A text as it stands in a source."""
    if '"#' in text:
        sys.exit(f'{PAGE}: "# would end a text in the source: {text}')
    return f'r#"{text}"#'


def function(heading, parts_of_it, variant):
    """The function that returns the explanation of a fault, as `field_range` for `53 FieldRange`."""
    number, name = heading.split()
    fault = ALONE.get(name) or f"({variant} fault.{name})"
    meaning, example, advice = parts_of_it
    example = f"Some(\n            {literal(example)},\n        )" if example else "None"
    fields = [f"number: {number}", f'name: "{name}"', f"meaning: {literal(meaning)}", f"example: {example}", f"advice: {literal(advice)}"]
    body = "".join(f"        {field},\n" for field in fields)
    return f"pub(crate) fn {snake_case(name)}() -> Explanation\n    ensures {{ IsExplanationOf {fault} result }}\n{{\n    Explanation {{\n{body}    }}\n}}\n"


def snake_case(name):
    return re.sub(r"(?<=[a-z])(?=[A-Z])", "_", name).lower()


def ends_source():
    """The file of the ends of runs."""
    head = [
        f"//! Ends of runs: explanations, made of {PAGE} by docs/explanations.py --write.\n",
        "ghost use Rattle.std.specs.Prelude.{◌≡◌};",
        "ghost use Rattle.c25_meaning_processor.specs.RunText.{stop_name};",
        "ghost use Rattle.c25_meaning_processor.specs.declared.stop.Stop.TheVariants as stop;",
        "\nuse crate::run_ends::RunEnd;\n",
    ]
    for name, meaning, example in ends():
        fields = [f'name: "{name}"', f"meaning: {literal(meaning)}", f"example: {literal(example)}"]
        body = "".join(f"        {field},\n" for field in fields)
        head.append(f"pub(crate) fn {snake_case(name)}() -> RunEnd\n    ensures {{ result.name.now ≡ stop_name stop.{name} }}\n{{\n    RunEnd {{\n{body}    }}\n}}\n")
    return "\n".join(head)


def warnings_source():
    """The file of the warnings."""
    head = [f"//! Explanations of warnings, made of {WARNINGS} by docs/explanations.py --write.\n", "ghost use Rattle.std.specs.Prelude.{◌≡◌};"]
    head += [f"ghost use Rattle.{crate}.specs.{file}.{{{names}}};" for _, crate, _, file, names in WARNING_GROUPS.values()]
    head += [f"ghost use Rattle.{crate}.specs.declared.{kind}.TheVariants as {short};" for short, crate, kind, _, _ in WARNING_GROUPS.values()]
    head += ["\nuse crate::page::Page;\n"]
    for title, group in warnings():
        short, _, _, _, names = WARNING_GROUPS[title]
        for name, (meaning, example, advice) in group.items():
            texts = {"summary": summary(meaning), "meaning": meaning, "example": example, "advice": advice}
            fields = [f'name: "{name}"'] + [f"{field}: {literal(text)}" for field, text in texts.items()]
            body = "".join(f"        {field},\n" for field in fields)
            head.append(f"pub(crate) fn {snake_case(name)}() -> Page\n    ensures {{ result.name.now ≡ {names} {short}.{name} }}\n{{\n    Page {{\n{body}    }}\n}}\n")
    return "\n".join(head)


def source(title, faults):
    """The file of a group."""
    _, variant, crate, kind = GROUPS[title]
    alone = [ALONE[name] for name in (heading.split()[1] for heading in faults) if name in ALONE]
    variants = ", ".join(sorted(alone + ([variant] if variant else [])))
    head = [
        f"//! {title}: explanations of faults, made of {PAGE} by docs/explanations.py --write.\n",
        "ghost use Rattle.c25_explain.specs.Explanation.{IsExplanationOf};",
        f"ghost use Rattle.c25_explain.specs.declared.fault.AnyFault.TheVariants.{{{variants}}};",
    ]
    head += [f"ghost use Rattle.{crate}.specs.declared.{kind}.TheVariants as fault;"] if variant else []
    head += ["\nuse crate::parts::Explanation;"]
    return "\n".join(head + ["", *(function(heading, text, variant) for heading, text in faults.items())])


def sources():
    groups = {f"{FOLDER}/{GROUPS[title][0]}.rt": source(title, faults) for title, faults in explanations()}
    return {**groups, f"{FOLDER}/{ENDS[1]}.rt": ends_source(), WARNINGS_FILE: warnings_source()}


def main(words):
    if "--write" in words:
        for path, text in sources().items():
            with open(path, "w", encoding="utf-8") as file:
                file.write(text)
        return 0
    if "--check" in words:
        wrong = [path for path, text in sources().items() if not os.path.isfile(path) or text_of(path) != text]
        print("\n".join(f"{path} is not what python3 docs/explanations.py --write makes of {WARNINGS if path == WARNINGS_FILE else PAGE}" for path in wrong) or f"the explanations are those of {PAGE} and {WARNINGS}")
        return 1 if wrong else 0
    faults = [whole(heading, text) for _, group in explanations() for heading, text in group.items()]
    runs = [whole(name, (meaning, example)) for name, meaning, example in ends()]
    print("\n".join(faults + runs + [whole(name, text) for _, group in warnings() for name, text in group.items()]), end="")
    return 0


if __name__ == "__main__":
    sys.exit(main(sys.argv[1:]))

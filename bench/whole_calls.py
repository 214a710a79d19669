"""Whole calls of the program, as files have them: the transcript of the cases, or files *.cases.

Both have `== case NAME`, `== words WORDS`, and `== file P` with its lines after it. In the transcript, crates/ded_cases/stdout, bodies have escapes
besides (crates/ded_cases/README.md), which are written out here. A file *.cases is plain.
"""
import collections
import itertools
import pathlib
import re

TRANSCRIPT = pathlib.Path(__file__).resolve().parent.parent / "crates/ded_cases/stdout"

Call = collections.namedtuple("Call", "name words files")
# A run as it is told: its events, how it ended, and of each task the name and what it wrote.
Told = collections.namedtuple("Told", "events ending names written")
ENDINGS = {0: "ended", 10: "stuck", 11: "turns"}


def written_out(body, texts):
    """A body of the transcript with its escapes written out."""

    def repeated(found):
        return "".join(found[2].replace("%#", str(number)) for number in range(1, int(found[1]) + 1))

    body = re.sub(r"(?s)%\{(\d+):(.*?)%\}", repeated, body)
    body = re.sub(r"%<(.*?)>", lambda found: texts[found[1]], body)
    body = re.sub(r"%-(\n|$)|%-", "", body)
    return re.sub("%([0-9A-F]{2})", lambda code: chr(int(code[1], 16)), body)


def sections_of(path):
    """The sections of a file: the word of each heading, the rest of it, and the lines that follow."""
    for section in re.split(r"(?m)^== ", path.read_text("ascii"))[1:]:
        heading, _, body = section.partition("\n")
        word, _, rest = heading.partition(" ")
        yield word, rest, body


def calls_of(path):
    """The calls of a file, each with its words and the text of each of its files."""
    call, texts, is_plain = None, {}, path.suffix == ".cases"
    for word, rest, body in sections_of(path):
        if word == "case":
            if call and call.words:
                yield call
            call = Call(f"{path.name}: {rest}", [], {})
        elif word == "words" and call and not call.words:
            call.words.extend(rest.split())
        elif word == "file" and call:
            call.files[rest] = body if is_plain else written_out(body, texts)
        elif word == "text":
            texts[rest] = body if is_plain else written_out(body, texts)
    if call and call.words:
        yield call


def programs_of(path):
    """The texts in a transcript that look like programs, each with the name of its case; who needs a legal one asks `check`."""
    case, texts = "", {}
    for word, rest, body in sections_of(path):
        if word in ("case", "text"):
            case = rest
        for text in [body, *(line.partition(" --> ")[0] for line in body.splitlines())]:
            if re.match(r"(?is)\s*(with\s+TEXT_IO\b.*)?\bprocedure\s+\w+\s+is\b.*\bend\b", text):
                yield f"{path.name}: {case}", written_out(text, texts).strip() + "\n"
        if word == "text":
            texts[rest] = written_out(body, texts)


def all_calls(paths, commands):
    """The calls of run or judge, whichever are named, from all files in turn; of those alone that have all words and files."""
    files = [file for path in paths or [TRANSCRIPT] for file in (sorted(path.glob("*.cases")) if path.is_dir() else [path])]
    turns = itertools.zip_longest(*(list(calls_of(file)) for file in files))
    found = [call for turn in turns for call in turn if call and call.words[0] in commands and len(call.words) == 5]
    return [call for call in found if all(it in call.files for it in files_named(call.words))]


def files_named(words):
    """The words of a call of run or judge that name files."""
    return [it for it in words[1:4] if it != "-" and not (words[0] == "run" and it.startswith("seed:"))]


def told_run(status, output):
    """What `run` tells; events of the text that stand for none are left out."""
    head, tail = re.split(r"(?m)^end .*\n", output)
    events = [line for line in head.splitlines()[1:] if not line.startswith("- ")]
    names, written = [], []
    for line in tail.splitlines():
        if line.startswith("task "):
            names.append(line.split(" ", 2)[2])
            written.append("")
        else:
            written[-1] += line[2:] + ("\n" if line[0] == "|" else "")
    return Told(events, ENDINGS[status], names, written)

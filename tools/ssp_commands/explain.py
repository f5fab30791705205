"""`ssp explain [LINE..]`: what a line of the program says, where in the file it is, and what to do."""
import os
import re
import sys
import textwrap

from .common import TOP, Told, in_shell, one_line, parse_xml, read_file, unescaped
from .systems import read_system

ABOUT = """Explains lines that the program ended with: of a refusal it tells the file with the line and the column, the start tag
there, and of docs/RULES.md the rule's sentence and what to do; of the other lines what they mean and what to do. Without LINE the
lines are read from standard input. A FILE of a line counts from the folder in which the program ran, so run this there too."""
WIDTH = 100
REFUSED = re.compile(r"refused (\d{1,2}) (\S+) (?:byte (\d{1,8})|(/\S+))(?: ports (\d{1,5}(?: \d{1,5})*))?", re.ASCII)
# where docs/RULES.md is, and what begins its paragraph of advice and its documents
RULES = os.path.join(TOP, "docs", "RULES.md")
ADVICE = "**What to do.** "
DOCUMENT = "The smallest document of the tests that breaks it:"

# of each other line its form, what it means, and what to do
LINES = (
    (r"words", "The words aren't a command line.", "`./ssprun help` has the words; numbers are whole counts."),
    (
        r"missing (?P<file>\S+)",
        "This file isn't there.",
        "Look at DIR and at the `source` of the component or the binding: a component lies in DIR/SOURCE, unpacked.",
    ),
    (r"read (?P<file>\S+)", "This file is there, or something in its place, and can't be read.", "See whether it may be read."),
    (
        r"big (?P<file>\S+)",
        "This file has more than 16 MiB, or a checkpoint more than 512 MiB, a limit of the program.",
        "Take out what isn't needed, or split it.",
    ),
    (
        r"checkpoint (?P<file>\S+) (?P<byte>\d+)",
        "This file holds no checkpoint of that system: byte {byte}, counted from 0, shows it, or the file ends there.",
        "Look whether it was written whole, by `checkpoint` of the same system in the same state of its files (docs/TWO_PARTS.md).",
    ),
    (
        r"unknown (?P<component>\S+)",
        "No machine that is part of the program has the model identifier of this component.",
        "An FMU with a library is run by a host: give `--host ./fmi3_host` (docs/HOSTS.md).",
    ),
    (
        r"link (?P<component>\S+) start",
        "The host of this component couldn't be started.",
        "Look at the path behind `--host`: a program that may be run, with a slash in it unless it is in PATH.",
    ),
    (
        r"link (?P<component>\S+) (?P<call>\w+)",
        "The host of this component ended, crashed or wrote what is no reply, when it was asked for {call}.",
        "Look at what the host wrote above this line, and try the component alone (`one`); an FMU that prints on standard output "
        "breaks a host that isn't fmi3_host.",
    ),
    (
        r"fmu (?P<component>\S+) (?P<call>\w+) (?P<status>Discard|Error|Fatal)",
        "The FMU of this component answered {call} with {status}.",
        "Look at what the FMU and its host wrote above this line; docs/HOSTS.md has a table of what goes wrong.",
    ),
    (
        r"misreply (?P<component>\S+) (?P<call>\w+) [0-9a-f]{48}",
        "The FMU of this component answered {call} with what this call may not get, or what is no value of the type.",
        "docs/PROFILE.md says which answers are good (`What an answer is worth`) and how the digits read (`A reply in bytes`).",
    ),
    (
        r"limit (?P<point>\d+)",
        "At the point {point} another instant is asked for, past those that are allowed: values or Clocks may chase each other.",
        "Look at the instants of this point at the end of the trace; where it needs more, give `--max-iterations` up to 10000.",
    ),
    (
        r"fixed (?P<component>\S+) (?P<point>\d+) (?P<end>\d+)",
        "The step from {point} to {end} has another size than H, and this FMU takes steps of H alone.",
        "Choose T - S as a multiple of H, and H such that each tick of a Clock is at a point of the grid. "
        "An FMU that ends steps early needs canHandleVariableCommunicationStepSize of each, itself too.",
    ),
    (
        r"range (?P<component>\S+) (?P<variable>\S+) (?P<value>-?\d+)",
        "The value {value} is lost on its way to {variable}: a transformation of a connection makes nothing of it that this input holds.",
        "Look at the transformations on the path to this input: each result is from -2^63 to 2^64 - 1, the last one in the range of "
        "the input's type, and a mapping needs an entry for each value that comes.",
    ),
    (r"write", "A write failed, to standard output or standard error.", "See whether the disk is full, or who reads the output ended."),
    (r"memory", "There isn't enough memory; nothing was called.", "docs/PERFORMANCE.md says what large files take."),
)
# the lines that `trace-check` writes on standard output
TRACE_RULES = {
    "1": "It is out of form, isn't the line of the system's port that is due here, or is missing.",
    "2": "The point or the instant of this line doesn't follow from those before it, or the end isn't that of the stop.",
    "3": "A connected input has another value than its path makes of its source's, or none where there is one.",
    "4": "A constant Clock ticks where it doesn't, or a tick of it was passed over.",
}
VERDICT = re.compile(r"no (\d+) ([1-4])", re.ASCII)
STEP = re.compile(r"/([^/\[]+)\[(\d{1,8})\]", re.ASCII)


def add_parser(subparsers):
    parser = subparsers.add_parser("explain", help="explains a line that the program ended with", description=ABOUT)
    parser.add_argument("words", metavar="LINE", nargs="*", help="a line as the program wrote it, its words with or without quotes")
    return parser


def run(args):
    lines = [" ".join(args.words)] if args.words else [line for line in sys.stdin.read().splitlines() if line.strip()]
    explained = [explanation(line.strip()) for line in lines]
    if None in explained:
        raise Told(f"this is no line of the program: {lines[explained.index(None)]}")
    if not lines:
        raise Told("there is no line to explain")
    for text in explained:
        print("\n".join(text))


def explanation(line):
    """The lines that explain a line of the program, or None where it is none."""
    refused, verdict = REFUSED.fullmatch(line), VERDICT.fullmatch(line)
    if refused:
        return refusal(*refused.groups())
    if verdict:
        line, rule = verdict.groups()
        first = f"Line {line} of the trace breaks rule {rule} of traces."
        return [first, *paragraph(f"{TRACE_RULES[rule]} docs/PROFILE.md has these rules (`What the check of a trace writes`).")]
    for form, meaning, advice in LINES:
        found = re.fullmatch(form, line)
        if found:
            parts = {key: unescaped(value) for key, value in found.groupdict().items()}
            about = next((f"{parts[key]}: " for key in ("file", "component") if key in parts), "")
            text = [one_line(f"{about}{meaning.format(**parts)}"), *paragraph(f"What to do: {advice}")]
            return text + (hints(parts["file"]) if "file" in parts else [])
    return None


def paragraph(text):
    indents = {"initial_indent": "    ", "subsequent_indent": "    "}
    return textwrap.wrap(one_line(text), WIDTH, break_long_words=False, break_on_hyphens=False, **indents)


def hints(path):
    """What is seen in the folders of a file that isn't there, or can't be read."""
    above = os.path.dirname(path)
    while above and not os.path.lexists(above):
        path, above = above, os.path.dirname(above)
    if above and os.path.isfile(above):
        packed = f"{above}.zip"
        command = f"mv {in_shell(above)} {in_shell(packed)} && tools/ssp unpack {in_shell(packed)} {in_shell(above)}"
        return paragraph(f"{above} is a file and has to be a folder. Where it is an archive: {command}")
    found = sorted(name for name in os.listdir(above or ".") if not name.startswith(".")) if os.path.isdir(above or ".") else []
    if not os.path.lexists(path) and found:
        more = " .." if len(found) > 12 else ""
        there = paragraph(f"In {above or 'this folder'} there are: {', '.join(found[:12])}{more}")
        if os.path.basename(path) == "SystemStructure.ssd" and "modelDescription.xml" in found:
            of_one = "`one` runs it; docs/PROFILE.md says how a trace of `one` is checked."
            there += paragraph(f"{above or '.'} is the folder of one FMU: {of_one}")
        return there
    return []


# ---- refusals


def refusal(rule, file, byte, place, ports):
    title, sentence, advice = of_rule(rule)
    path = unescaped(file)
    where, tag = place_in(path, int(byte) if byte else None, place)
    text = [one_line(f"{path}{where}: rule {rule}: {title}")]
    text += [one_line(f"    {tag}")] if tag else []
    if ports:
        text += paragraph(f"The ring, each port needs the next, and the last the first: {', '.join(names_of(path, ports))}")
    text += paragraph(sentence)
    return text + (paragraph(f"What to do: {advice}") if advice else [])


def of_rule(rule):
    """The title, the sentences and the advice that docs/RULES.md has for a rule."""
    with open(RULES, encoding="utf-8") as file:
        section = re.search(rf"^### {rule} ([^\n]*)\n\n(.*?)(?=^{re.escape(DOCUMENT)}|^### |\Z)", file.read(), re.M | re.S)
    if section is None:
        raise Told(f"docs/RULES.md has no rule {rule}")
    paragraphs = [re.sub(r"\[([^\]]*)\]\([^)]*\)", r"\1", text.replace("\n", " ")) for text in section[2].strip().split("\n\n")]
    advice = [text[len(ADVICE) :] for text in paragraphs if text.startswith(ADVICE)]
    return section[1], " ".join(text for text in paragraphs if not text.startswith(ADVICE)), " ".join(advice)


def place_in(path, byte, place):
    """A place as `:LINE:COLUMN`, and what stands there; both are empty where the file isn't there, or can't be read so."""
    try:
        data = read_file(path)
        if byte is not None:
            return position(data, byte), shown(data[max(0, byte - 30) : byte + 30])
        root = parse_xml(data, path)
    except (OSError, Told):
        return "", ""
    element = element_at(root, place)
    if element is None:
        return "", ""
    return f":{element.line}:{element.column}", start_tag(data, element.byte)


def element_at(root, place):
    """The element at a place, `/NAME[i]` for each level, or None."""
    if STEP.sub("", place):
        return None
    beside, element = [root], None
    for name, number in STEP.findall(place):
        element = beside[int(number) - 1] if 1 <= int(number) <= len(beside) else None
        if element is None or element.name != name:
            return None
        beside = element.children
    return element


def position(data, byte):
    """The line and the column, in characters, of a byte."""
    before = data[:byte]
    line = before.count(b"\n") + 1
    return f":{line}:{len(before[before.rfind(bytes([10])) + 1 :].decode('utf-8', 'replace')) + 1}"


def shown(data):
    return data.decode("utf-8", "backslashreplace").replace("\n", " ")


def start_tag(data, byte):
    """The start tag that begins at a byte, on one line."""
    found = re.compile(rb"<(?:[^>\"']|\"[^\"]*\"|'[^']*')*>").match(data, byte)
    text = " ".join(shown(found[0]).split()) if found else ""
    return text if len(text) <= 200 else f"{text[:200]} .."


def names_of(path, ports):
    """The names of ports by their numbers; the numbers where the system can't be read."""
    try:
        known = read_system(os.path.dirname(path) or ".").ports()
        return [f"{known[number][0].name}.{known[number][1].name}" for number in map(int, ports.split())]
    except (OSError, Told, IndexError):
        return ports.split()

"""The first hour of who opens the repository to judge it or to change it: what the pages say to type, as far as it proves nothing
and changes no file. tests/pages/run plays it; of itself it needs no built program."""
import os
import pathlib
import re
import shlex
import subprocess

from daemon import ROOT, WAIT

# What a page says, the command, and a line of what it prints.
HOUR = [
    ("docs/engineering/CONTRACTS.md", "`rt version` says which it is", "rt version", r"rattle-kit-\w+ logic \w+"),
    ("docs/engineering/CONTRACTS.md", "`rt doc` prints the path of the page", "rt doc", r"/.*\.md"),
    ("docs/engineering/CONTRACTS.md", "`rt lemma claim` finds definitions and lemmas by name", "rt lemma claim", r".*claim.*"),
    ("docs/engineering/GATE.md", "`./gate help` lists the parts and what each runs", "./gate help", r"definitions +tools/.*"),
    ("docs/engineering/DEFINITIONS.md", "with `Holds` or `sd_label`", "tools/definitions Holds", r"  Holds  \(record, line \d+\)"),
    ("docs/engineering/DEFINITIONS.md", "with `Holds` or `sd_label`", "tools/definitions sd_label", r"crates/sd_label/specs/.*"),
    ("docs/engineering/DEFINITIONS.md", "With `--reach headline World` it counts", "tools/definitions --reach headline World",
     r"headline: \d+ definitions, \d+ lines"),
    ("docs/engineering/EVIDENCE.md", "`tools/evidence --check`", "tools/evidence --check", r"evidence: .* 0 faults"),
    ("docs/engineering/QUESTIONS.md", "`tools/questions --check` holds them to the pages", "tools/questions --check", r"questions: .* 0 faults"),
    ("docs/use/RELEASES.md", "`tools/packages list` has the packages", "tools/packages list", r"debhelper +dh .*"),
]
# A file of the repository between backticks, and the words behind it.
FILE = re.compile(r"`((?:\./|tools/|tests/|bench/|examples/|client/|keeper/|relay/)[\w./@-]+)( [^`\n]*)?`")
PROGRAM = re.compile(r"\./\w+|tools/\w+|bench/\w+|tests/\w+/run")
# What stands for some name.
ANY = re.compile(r"[A-Z]{2,}")
OF_RT = re.compile(r"`(?:tools/cost )?rt ([a-z-]+)")
LEAST_FILES, LEAST_OF_RT = 60, 8


def pages():
    return [ROOT / "README.md", *sorted((ROOT / "docs").rglob("*.md"))]


def said(command):
    """What a command prints, on standard output and error, and its status."""
    done = subprocess.run(shlex.split(command), cwd=ROOT, stdout=subprocess.PIPE, stderr=subprocess.STDOUT, text=True, timeout=10 * WAIT)
    return done.stdout, done.returncode


def files(checks):
    """Each file that a page names is there, and can be run, if it is a program."""
    found = {match[1] for page in pages() for match in FILE.finditer(page.read_text()) if not ANY.search(match[1])}
    checks.check("files", len(found) >= LEAST_FILES, f"only {len(found)} are named")
    for name in sorted(found):
        path = ROOT / name
        checks.check(name, path.exists(), "isn't there")
        if PROGRAM.fullmatch(name):
            checks.check(f"{name} is a program", path.is_dir() or os.access(path, os.X_OK), "can't be run")


def commands_of_rt(checks):
    """Each command of rt that a page names is one."""
    known, _ = said("rt --help")
    found = {word for page in pages() for word in OF_RT.findall(page.read_text())}
    checks.check("commands of rt", len(found) >= LEAST_OF_RT, f"only {sorted(found)} are named")
    for word in sorted(found):
        checks.check(f"rt {word}", re.search(rf"(?:^|[\s|]){word}(?:[\s|\[]|$)", known), "isn't one")


def play(checks):
    checks.group = "the first hour"
    for page, words, command, line in HOUR:
        checks.check(f"{page} says it", words in (ROOT / page).read_text(), words)
        printed, status = said(command)
        checks.same(f"{command}: status", status, 0)
        checks.check(command, any(re.fullmatch(line, one) for one in printed.splitlines()), f"prints\n{printed:.600}")
    doc, _ = said("rt doc")
    checks.check("what rt doc names", pathlib.Path(doc.strip()).is_file(), doc)
    files(checks)
    commands_of_rt(checks)

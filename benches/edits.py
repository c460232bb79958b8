#!/usr/bin/env python3
"""Tries edits that the gate doesn't try: those in crates/NAME/edits, each of which the check of its crate must refuse.

    benches/edits.py [NAME..]     those of these crates, or of every crate that has such a folder

A function's proof stands on its own body and on what others state. So edits that change different functions are put into one copy
of the crate, and one check asks for these functions alone: an edit is refused where a function that it changed is refused for itself,
and not for one that it calls. Edits of the same function go into one check after the other. Of an edit of a constant the functions
that name it are asked for; an edit of a definition is tried alone, by a check of the whole crate, which must refuse something.

The crate itself must be proved: where its library isn't built as it stands, it is built first (`rt check` and `benches/prove.py`
build it too). SECONDS is the most processor time of a check (900); what ends there is told as such. The status is 0 where each edit
is refused.
"""
import glob
import os
import pathlib
import re
import resource
import shutil
import subprocess
import sys
import tempfile
from dataclasses import dataclass, field

from prove import repository

# What an edit comes to.
REFUSED, MISSED, BAD, LIMIT = "refused", "NOT REFUSED", "BAD", "no verdict"
# What is said of a function that isn't proved, beside why that is, and where it only calls one that isn't.
NO_REASON = re.compile(r"^(no proof: )?expected answers in|^(not proved|no proof)$|^it calls `[^`]*`, which")
# What a proof file says where an edit took a name away: that shows nothing of the contract.
LOST_NAME = re.compile(r"has no field|is not in scope|has no `|was not admitted")
FN = re.compile(r"( *)(?:pub(?:\([a-z]+\))? )?fn (\w+)")
IMPL = re.compile(r"( *)impl\b")


@dataclass
class Function:
    """A function of a file: its module, the type of its impl, if it has one, whether that is of a trait, and its lines."""

    module: str
    type: str
    of_trait: bool
    name: str
    first: int
    last: int

    def path(self):
        """What to ask a check for. A method's name has the module of its type, which may be another; that of a trait's method has
        all words of the impl too, so it is asked for by the module that it is written in."""
        if self.of_trait:
            return self.module or self.type
        return "::".join(it for it in (self.type or self.module, self.name) if it)

    def key(self):
        return self.type or self.module, self.of_trait and self.module, self.name

    def is_called(self, printed):
        """Whether a check's name is this function's, below the crate."""
        front, _, name = printed.rpartition("::")
        if name != self.name:
            return False
        if not self.type:
            return front == self.module
        last = front.rpartition("::")[2]
        return last.startswith(self.type) if self.of_trait else last == self.type


@dataclass
class Edit:
    name: str
    text: str
    asked: list = field(default_factory=list)
    came: str = ""
    said: str = ""


def type_of(head):
    """The type that the head of an impl is about, and whether it is one of a trait."""
    rest, depth = head.partition("impl")[2], 0
    words = []
    for it in re.findall(r"->|[<>]|\w+|'\w+", rest):
        depth += {"<": 1, ">": -1}.get(it, 0)
        if depth == 0 and re.fullmatch(r"\w+", it):
            words.append(it)
    if "for" in words:
        return words[words.index("for") + 1], True
    return words[0], False


def functions_of(folder, path):
    """The functions of a file as `rt fmt` lays it out, where each ends with a brace below its first letter."""
    module = "::".join(path[len("src/") : -len(".rt")].split("/"))
    module = "" if module in ("lib", "main") else module
    lines = pathlib.Path(folder, path).read_text(encoding="utf-8").split("\n")
    found, inside = [], None
    for at, line in enumerate(lines):
        if inside and line == inside[0] + "}":
            inside = None
        head = IMPL.match(line)
        if head and not line.rstrip().endswith("}"):
            inside = head[1], *type_of(line)
        head = FN.match(line)
        if head:
            last = next((to for to in range(at, len(lines)) if lines[to] in (head[1] + "}", head[1] + "{}")), at)
            type, of_trait = inside[1:] if inside and len(head[1]) > len(inside[0]) else ("", False)
            found.append(Function(module, type, of_trait, head[2], at, last))
    return found


def asked_by(folder, text):
    """The functions that an edit changes, or that name the constant that it changes; none where it changes something else."""
    asked, path = [], ""
    for line in text.split("\n"):
        if line.startswith("file: "):
            path = line[len("file: ") :].strip()
        elif line.startswith("old: "):
            if not path.startswith("src/"):
                return []
            was = pathlib.Path(folder, path).read_text(encoding="utf-8")
            at = was[: was.find(line[len("old: ") :])].count("\n")
            there = [it for it in functions_of(folder, path) if it.first <= at <= it.last]
            there = there[-1:] or named_in(folder, was.split("\n")[: at + 1])
            if not there:
                return []
            asked += there
    return [it for at, it in enumerate(asked) if it.key() not in [old.key() for old in asked[:at]]]


def named_in(folder, lines):
    """The functions that name the constant which the last of these lines belongs to."""
    head = next((it for it in reversed(lines) if it[:1].strip(" })]")), "")
    constant = re.match(r"(?:pub(?:\([a-z]+\))? )?(?:const|static) (\w+)", head)
    found = []
    for path in sorted(glob.glob("src/**/*.rt", root_dir=folder, recursive=True)) if constant else []:
        lines = pathlib.Path(folder, path).read_text(encoding="utf-8").split("\n")
        for it in functions_of(folder, path):
            if any(re.search(rf"\b{constant[1]}\b", line) for line in lines[it.first : it.last + 1]):
                found.append(it)
    return found


def rounds_of(edits):
    """Edits that change different functions, together; one of a definition alone."""
    rounds = []
    for edit in edits:
        keys = {it.key() for it in edit.asked}
        for one, taken in rounds:
            if keys and taken and not keys & taken:
                one.append(edit)
                taken |= keys
                break
        else:
            rounds.append(([edit], set(keys)))
    return [one for one, _ in rounds]


def ended(words, folder):
    """Runs a check to its end, and returns its status and what it said. One that takes no processor time sleeps for good, and is
    run again."""
    most = int(os.environ.get("SECONDS", "900"))
    while True:
        with tempfile.TemporaryFile("w+", errors="replace") as out:
            ran = subprocess.Popen(
                words,
                cwd=folder,
                stdin=subprocess.DEVNULL,
                stdout=out,
                stderr=subprocess.STDOUT,
                preexec_fn=lambda: resource.setrlimit(resource.RLIMIT_CPU, (most, most + 5)),
            )
            taken, sleeps = [0], False
            while not sleeps and ran.poll() is None:
                try:
                    ran.wait(timeout=60)
                except subprocess.TimeoutExpired:
                    taken.append(time_of(ran.pid))
                    sleeps = len(taken) > 5 and taken[-1] == taken[-6]
            if not sleeps:
                out.seek(0)
                return ran.returncode, out.read()
            ran.kill()
            ran.wait()


def time_of(pid):
    """The processor seconds of a process and of those that it began."""
    found = 0
    for path in glob.glob("/proc/[0-9]*/stat"):
        try:
            name, _, rest = pathlib.Path(path).read_text().rpartition(") ")
        except OSError:
            continue
        words = rest.split()
        if pid in (int(name.split(" ")[0]), int(words[1])):
            found += sum(int(it) for it in words[11:15])
    return found // os.sysconf("SC_CLK_TCK")


def checked(rt, crate, edits, kept):
    """Checks a copy of the crate with these edits, and returns the status, what it said, and why nothing was checked."""
    with tempfile.TemporaryDirectory(prefix="edits-") as room:
        for part in rt.rtlib.PARTS:
            if os.path.isdir(f"{crate.folder}/{part}"):
                shutil.copytree(f"{crate.folder}/{part}", f"{room}/{part}")
        changed = set()
        for edit in edits:
            texts, why = rt.edited(edit.text, room)
            if why:
                return 1, "", why
            for path, text in texts.items():
                pathlib.Path(room, path).write_text(text, encoding="utf-8")
                changed.add(path)
        only = sorted({it.path() for edit in edits for it in edit.asked})
        words = crate.words([*[word for it in only for word in ("--only", it)], "--jobs", "1"], keeps=False)
        status, said = ended([*rt.rtlib.guarded(), rt.rtlib.RATTLE, "check", *words, "--incremental", kept], room)
    lines = said.split("\n")
    unread = [it for it in lines if re.search(r"\berror\[[\w-]+\]", it) or status == 1 and rt.unread(it, changed)]
    if status not in (0, 1, 3):
        return status, said, f"its check ended with status {status}: {lines[-2:][0][:120]}"
    return status, said, unread[0][:160] if unread else ""


def is_own(said, there):
    """Whether a function that isn't proved is refused for itself, by what is said of it and by the errors in its proof files."""
    reasons = said.split("; ")
    return bool(there) or len(reasons) == 1 or not all(NO_REASON.search(it) for it in reasons)


def judge(crate, edits, status, said):
    """Reads off what each edit of a check came to."""
    lines = [it.removeprefix("note: ").removeprefix("./") for it in said.split("\n")]
    fns = [it for it in (re.match(rf"fn {crate.name}::(\S+): (.*)", line) for line in lines) if it]
    errors = [it for it in lines if re.match(r"\S+:\d+:\d+: error", it)]
    for edit in edits:
        mine = [it for it in fns if not edit.asked or any(a.is_called(it[1]) for a in edit.asked)]
        own = []
        for it in mine:
            there = [error for error in errors if error.startswith(f"proofs/{it[1].replace('::', '/')}/")]
            if not it[2].startswith("proved") and is_own(it[2], there):
                own.append((*it.groups(), there))
        told = [it for it in own if not it[1].startswith("could not tell")]
        if told:
            edit.came, edit.said = REFUSED, told[0][0]
            if told[0][2] and all(LOST_NAME.search(it) for it in told[0][2]) and "`search` did not" not in told[0][1]:
                edit.said += " (only since a proof file names what the edit took away)"
        elif own:
            edit.came, edit.said = LIMIT, own[0][0]
        elif edit.asked and not mine:
            edit.came, edit.said = BAD, f"no function of the check is {edit.asked[0].path()}"
        elif not edit.asked and status == 1:
            edit.came, edit.said = REFUSED, (errors or [""])[0][:120]
        else:
            edit.came = MISSED if status < 3 else LIMIT


def tried(rt, crate, edits, kept):
    """Tries edits together, and in halves where a check of all says nothing."""
    status, said, why = checked(rt, crate, edits, kept)
    if not why:
        judge(crate, edits, status, said)
    elif len(edits) > 1:
        tried(rt, crate, edits[: len(edits) // 2], kept)
        tried(rt, crate, edits[len(edits) // 2 :], kept)
    else:
        edits[0].came, edits[0].said = LIMIT if status < 0 else BAD, why


def built(crate):
    """Builds what lies below, and the crate itself, where it isn't built as it stands."""
    for it in [*crate.below(), crate]:
        if not it.is_program and it.build_rlib([], anew=False):
            return False
    return not crate.is_program or not crate.check([])


def main(names):
    top = str(pathlib.Path(__file__).resolve().parent.parent)
    rt, crates = repository(top)
    crates = [it for it in crates if os.path.isdir(f"{it.folder}/edits") and (not names or it.name in names)]
    left = []
    for crate in crates:
        if not built(crate):
            print(f"{crate.name}: isn't proved, so none of its edits was tried", flush=True)
            left.append(crate.name)
            continue
        edits = []
        for path in sorted(glob.glob(f"{crate.folder}/edits/*.edit")):
            edit = Edit(os.path.basename(path)[: -len(".edit")], pathlib.Path(path).read_text(encoding="utf-8"))
            why = rt.edited(edit.text, crate.folder)[1]
            if why:
                edit.came, edit.said = BAD, why
            else:
                edit.asked = asked_by(crate.folder, edit.text)
            edits.append(edit)
        rounds = rounds_of([it for it in edits if not it.came])
        with tempfile.TemporaryDirectory(prefix="edits-") as kept:
            for one in rounds:
                tried(rt, crate, one, kept)
        for it in edits:
            print(f"{crate.name}/{it.name}: {it.came}{': ' if it.said else ''}{it.said}")
        counts = ", ".join(f"{sum(it.came == kind for it in edits)} {kind}" for kind in (REFUSED, MISSED, BAD, LIMIT))
        print(f"{crate.name}: {len(edits)} edits in {len(rounds)} checks: {counts}", flush=True)
        left += [f"{crate.name}/{it.name}" for it in edits if it.came != REFUSED]
    print(f"not refused: {' '.join(left)}" if left else "each was refused")
    return 1 if left else 0


if __name__ == "__main__":
    sys.exit(main(sys.argv[1:]))

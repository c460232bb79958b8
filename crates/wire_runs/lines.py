"""How a vector is written down: a question, which is a line of stdin, and its answer."""
import pathlib
import sys

# what stored requests of the daemon are made of serves here too: bodies and ids
sys.path.append(str(pathlib.Path(__file__).parent.parent / "engine_scenarios"))

LINES = []


def heading(text):
    LINES.append((f"# {text}", ""))


def ask(question, answer):
    LINES.append((question, answer))


def table(prefix, text):
    """A line for each question, with its answer behind `=> `."""
    for line in text.strip("\n").split("\n"):
        question, answer = line.split("=> ")
        ask(prefix + question, answer)


def each(prefix, questions, answer):
    for question in questions:
        ask(prefix + question, answer)


def write(script):
    """Writes stdin and stdout beside the script."""
    here = pathlib.Path(script).parent
    (here / "stdin").write_bytes("".join(f"{question}\n" for question, _ in LINES).encode())
    (here / "stdout").write_bytes("".join(f"{question}\n{answer}\n" for question, answer in LINES).encode())

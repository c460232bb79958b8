"""The last events, volumes, and an exec."""
from lines import *

heading("of 65,537 events the first is dropped")
ask("ring|pushed|65537|from 0|from 1|from 65537|at 0|at 1000|at 65537",
    "0 is gone, 1 is there | some | up to date | 1 | 1000 | 65537 | ")
heading("a die tells its exit code")


def event(action, **attributes):
    pairs = ",".join(f'"{key}":"{value}"' for key, value in sorted(attributes.items()))
    return (f'{{"Action":"{action}","Actor":{{"Attributes":{{{pairs}}},"ID":"76b8"}},"Type":"container","scope":"local",'
            f'"time":1700000000,"timeNano":1700000000000000000}}\\n')


WEB = dict(image="engine/tools:latest", name="web")
ask(f"ring|rows|{event('create', **WEB)}|{event('die', exitCode=137, **WEB)}", "1 rows, code 137")

heading("a volume is removed once no container refers to it")


def steps(*rows):
    ask("holding|volumes|" + "|".join(step for step, _ in rows), "".join(f"{answer} | " for _, answer in rows))


steps(("create data1", "New"), ("find data1", "true"), ("create data1", "Stood"), ("refer data1", "referred"), ("refer data2", "none"),
      ("remove data1", "InUse"), ("release", "released"), ("count", "1"), ("remove data1", "Ok"), ("remove data1", "Missing"),
      ("count", "0"))
heading("an exec stands by its id, by its number and in its container")
ask("holding|exec|7|76b8|3", "true true 1")

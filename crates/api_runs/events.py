"""Event lines."""
from lines import *

heading("event lines are read, written and read again the same")
for line in r"""
container create 1700000000700 2 {"Action":"create","Actor":{"Attributes":{"image":"engine/tools:latest","name":"web"},"ID":"76b8"},"Type":"container","scope":"local","time":1700000000,"timeNano":1700000000700000000}
container kill 999 3 {"Action":"kill","Actor":{"Attributes":{"image":"engine/tools:latest","name":"web","signal":"15"},"ID":"76b8"},"Type":"container","scope":"local","time":0,"timeNano":999000000}
container die 0 3 {"Action":"die","Actor":{"Attributes":{"exitCode":"143","image":"engine/tools:latest","name":"web"},"ID":"76b8"},"Type":"container","scope":"local","time":0,"timeNano":0}
container rename 0 3 {"Action":"rename","Actor":{"Attributes":{"image":"engine/tools:latest","name":"db","oldName":"web"},"ID":"76b8"},"Type":"container","scope":"local","time":0,"timeNano":0}
container exec_die 0 4 {"Action":"exec_die","Actor":{"Attributes":{"execID":"x","exitCode":"255","image":"engine/tools:latest","name":"web"},"ID":"76b8"},"Type":"container","scope":"local","time":0,"timeNano":0}
container update 5 2 {"Action":"update","Actor":{"Attributes":{"image":"engine/tools:latest","name":"web"},"ID":"76b8"},"Type":"container","scope":"local","time":0,"timeNano":5000000}
volume mount 9000000000000 2 {"Action":"mount","Actor":{"Attributes":{"container":"76b8","driver":"local"},"ID":"data"},"Type":"volume","scope":"local","time":9000000000,"timeNano":9000000000000000000}
""".strip("\n").split("\n"):
    kind, action, moment, attributes, text = line.split(" ", 4)
    ask(f"event|{text}\\n", f"{kind} {action} {moment} {attributes}")
heading("a code of 256, one with a zero before it, a missing attribute, a wrong second, a blank, and keys in another order")
for text in r"""
{"Action":"die","Actor":{"Attributes":{"exitCode":"256","image":"i","name":"web"},"ID":"76b8"},"Type":"container","scope":"local","time":0,"timeNano":0}
{"Action":"die","Actor":{"Attributes":{"exitCode":"07","image":"i","name":"web"},"ID":"76b8"},"Type":"container","scope":"local","time":0,"timeNano":0}
{"Action":"die","Actor":{"Attributes":{"image":"i","name":"web"},"ID":"76b8"},"Type":"container","scope":"local","time":0,"timeNano":0}
{"Action":"create","Actor":{"Attributes":{"driver":"local"},"ID":"v"},"Type":"volume","scope":"local","time":1,"timeNano":0}
{"Action":"create", "Actor":{"Attributes":{"driver":"local"},"ID":"v"},"Type":"volume","scope":"local","time":0,"timeNano":0}
{"Actor":{"Attributes":{"driver":"local"},"ID":"v"},"Action":"create","Type":"volume","scope":"local","time":0,"timeNano":0}
""".strip("\n").split("\n"):
    ask(f"event|{text}\\n", "refused")
heading("a line that would be taken if it had its end")
ask('event|{"Action":"create","Actor":{"Attributes":{"driver":"local"},"ID":"v"},"Type":"volume","scope":"local","time":0,"timeNano":0}', "refused")

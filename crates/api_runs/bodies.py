"""Bodies of requests, and of answers."""
from lines import *
from exchange import USUAL

WHOLE = ('{"HostConfig":{"Mounts":[{"Type":"volume","Source":"w2","Target":"/w","ReadOnly":true}],"Binds":["v1:/d","v2:/e:ro"],'
         '"RestartPolicy":{"MaximumRetryCount":3,"Name":"on-failure"},"AutoRemove":false},"Labels":{"b":"2","a":"1"},'
         '"StopTimeout":-1,"StopSignal":"hup","StdinOnce":true,"OpenStdin":true,"Tty":false,"Cmd":["9"],"Entrypoint":"exit",'
         '"Image":"engine/tools"}')
PLAIN = "policy No; signal 15; seconds 10; stdin false; once false"


def create(name, image, words="", labels="", mounts=""):
    return f"name {name}; image {image}; words {words}; {PLAIN}; labels{labels}; mounts{mounts}"


KINDS = {"create": "create|", "update": "update", "exec": "exec", "start": "exec start", "volume": "volume", "filter": "filter by name"}


def refused(text):
    """A kind of body, the text of its refusal, and the body."""
    for line in text.strip("\n").split("\n"):
        kind, rest = line.split(" ", 1)
        answer, body = rest.split(": ", 1)
        ask(f"body|{KINDS[kind]}|{body}", answer)


heading("a create as the usual client writes it, one with every field, and one with doubled keys, of which the last counts")
ask(f"body|create||{USUAL}", create("(none)", "engine/tools:latest", "echo hi"))
ask(f"body|create|/web|{WHOLE}", "name /web; image engine/tools; words exit 9; policy OnFailure(3); signal 1; seconds -1; stdin true; "
    "once true; labels a=1 b=2; mounts v1:/d:rw v2:/e:ro w2:/w:ro")
ask('body|create||{"Image":7,"Cmd":"a","Image":"i","Cmd":"b"}', create("(none)", "i", "b"))
heading("creates are refused by their first fault")
refused(r"""
create bad JSON: []
create bad JSON: {"Image":1e999}
create bad field Image: {}
create bad field Image: {"Image":null}
create bad field Entrypoint: {"Image":"i","Entrypoint":1}
create bad field Cmd: {"Image":"i","Cmd":["a",1]}
create bad field Tty: {"Image":"i","Tty":"no"}
create TTY is left out: {"Image":"i","Tty":true}
create bad field OpenStdin: {"Image":"i","OpenStdin":1}
create bad field StdinOnce: {"Image":"i","StdinOnce":1}
create bad field StopSignal: {"Image":"i","StopSignal":"x"}
create bad field StopTimeout: {"Image":"i","StopTimeout":-2}
create bad field StopTimeout: {"Image":"i","StopTimeout":1.0}
create bad field Labels: {"Image":"i","Labels":{"a":null}}
create bad field Volumes: {"Image":"i","Volumes":[]}
create anonymous volumes are left out: {"Image":"i","Volumes":{"/d":{}}}
create bad field HostConfig: {"Image":"i","HostConfig":"h"}
create bad field Image: {"Image":7,"Cmd":7,"Tty":7}
""")
heading("host configs are refused by their first fault")
refused(r"""
create bad field Binds: {"Image":"i","HostConfig":{"Binds":"v1:/d"}}
create bad mount: {"Image":"i","HostConfig":{"Binds":["v1"]}}
create bad mount: {"Image":"i","HostConfig":{"Binds":["v1:/d:ro:x"]}}
create bad mount: {"Image":"i","HostConfig":{"Binds":["v1:/d:z"]}}
create bad mount: {"Image":"i","HostConfig":{"Binds":["/host:/d"]}}
create bad mount: {"Image":"i","HostConfig":{"Binds":["v1:d"]}}
create bad field Mounts: {"Image":"i","HostConfig":{"Mounts":{}}}
create bad field Mounts: {"Image":"i","HostConfig":{"Mounts":[1]}}
create bad mount: {"Image":"i","HostConfig":{"Mounts":[{"Source":"v1","Target":"/d"}]}}
create bad mount: {"Image":"i","HostConfig":{"Mounts":[{"Type":"bind","Source":"v1","Target":"/d"}]}}
create bad field Type: {"Image":"i","HostConfig":{"Mounts":[{"Type":1}]}}
create bad field Source: {"Image":"i","HostConfig":{"Mounts":[{"Type":"volume","Source":1}]}}
create bad field Target: {"Image":"i","HostConfig":{"Mounts":[{"Type":"volume","Source":"v1","Target":1}]}}
create bad field ReadOnly: {"Image":"i","HostConfig":{"Mounts":[{"Type":"volume","Source":"v1","Target":"/d","ReadOnly":0}]}}
create bad field RestartPolicy: {"Image":"i","HostConfig":{"RestartPolicy":"no"}}
create bad field Name: {"Image":"i","HostConfig":{"RestartPolicy":{"Name":1}}}
create bad field MaximumRetryCount: {"Image":"i","HostConfig":{"RestartPolicy":{"MaximumRetryCount":1.5}}}
create bad restart policy: {"Image":"i","HostConfig":{"RestartPolicy":{"Name":"sometimes"}}}
create bad restart policy: {"Image":"i","HostConfig":{"RestartPolicy":{"Name":"no","MaximumRetryCount":1}}}
create bad restart policy: {"Image":"i","HostConfig":{"RestartPolicy":{"MaximumRetryCount":18446744073709551615}}}
create bad field AutoRemove: {"Image":"i","HostConfig":{"AutoRemove":"yes"}}
create AutoRemove excludes a restart policy: {"Image":"i","HostConfig":{"AutoRemove":true,"RestartPolicy":{"Name":"always"}}}
create AutoRemove excludes a restart policy: {"Image":"i","HostConfig":{"AutoRemove":true,"RestartPolicy":{"Name":"on-failure"}}}
create bad field AutoRemove: {"Image":"i","HostConfig":{"AutoRemove":1},"Healthcheck":1}
""")
heading("health checks are refused by their first fault")
refused(r"""
create bad field Healthcheck: {"Image":"i","Healthcheck":[]}
create bad field Test: {"Image":"i","Healthcheck":{"Test":"CMD","Interval":1}}
create bad field Test: {"Image":"i","Healthcheck":{"Test":["CMD"]}}
create bad field Test: {"Image":"i","Healthcheck":{"Test":["CMD-SHELL"]}}
create bad field Test: {"Image":"i","Healthcheck":{"Test":["CMD-SHELL"," \t"]}}
create bad field Test: {"Image":"i","Healthcheck":{"Test":["CMD-SHELL","a","b"]}}
create bad field Test: {"Image":"i","Healthcheck":{"Test":["NONE","a"]}}
create bad field Test: {"Image":"i","Healthcheck":{"Test":["flaky"]}}
create bad field Interval: {"Image":"i","Healthcheck":{"Interval":999999,"Timeout":1}}
create bad field Interval: {"Image":"i","Healthcheck":{"Interval":3600000000001}}
create bad field Timeout: {"Image":"i","Healthcheck":{"Timeout":-1,"StartPeriod":1}}
create bad field StartPeriod: {"Image":"i","Healthcheck":{"StartPeriod":1,"Retries":1001}}
create bad field Retries: {"Image":"i","Healthcheck":{"Retries":1001}}
create bad field Retries: {"Image":"i","Healthcheck":{"Retries":-1}}
create bad field Retries: {"Image":"i","Healthcheck":{"Retries":1.5}}
""")
heading("what is removed by itself, and health checks; no times and no retries are the usual ones, and no test is no check")
PLAIN_CREATE = create("(none)", "i")
for more, said in (
    ('"HostConfig":{"AutoRemove":true}', "; removed by itself"),
    ('"HostConfig":{"AutoRemove":true,"RestartPolicy":{"Name":"no"}}', "; removed by itself"),
    ('"Healthcheck":{}', ""),
    ('"Healthcheck":{"Test":[]}', ""),
    ('"Healthcheck":{"Test":["NONE"],"Interval":1000000}', ""),
    ('"Healthcheck":{"Test":["CMD","flaky","2"]}', "; check flaky 2 each 30000 within 30000 from 0, 3 times"),
    ('"Healthcheck":{"Test":["CMD","a b",""],"Interval":0,"Retries":0}', "; check a b  each 30000 within 30000 from 0, 3 times"),
    ('"Healthcheck":{"Test":["CMD-SHELL","  flaky \\t2 "],"Interval":1999999,"Timeout":3600000000000,"StartPeriod":1000000,"Retries":1000}',
     "; check flaky 2 each 1 within 3600000 from 1, 1000 times"),
):
    ask(f'body|create||{{"Image":"i",{more}}}', PLAIN_CREATE + said)
heading("an update gives a policy, or none")
refused(r"""
update bad JSON: []
update bad JSON: 
update bad field RestartPolicy: {"RestartPolicy":"no"}
update bad field Name: {"RestartPolicy":{"Name":1,"MaximumRetryCount":1}}
update bad restart policy: {"RestartPolicy":{"Name":"sometimes"}}
update bad restart policy: {"RestartPolicy":{"Name":"","MaximumRetryCount":1}}
update bad restart policy: {"RestartPolicy":{"Name":"always","MaximumRetryCount":1}}
""")
table("body|", """
update|{}=> no policy
update|{"RestartPolicy":null}=> no policy
update|{"RestartPolicy":{"Name":"","MaximumRetryCount":0},"Memory":1}=> no policy
update|{"RestartPolicy":{"Name":"no"}}=> policy No
update|{"RestartPolicy":{"Name":"on-failure","MaximumRetryCount":3}}=> policy OnFailure(3)
""")
heading("sixteen mounts are taken and seventeen not")
FIFTEEN = ",".join(['"v1:/d"'] * 15)
MOUNT = '"Mounts":[{"Type":"volume","Source":"v1","Target":"/d"}]'
ask(f'body|create||{{"Image":"i","HostConfig":{{"Binds":[{FIFTEEN}],{MOUNT}}}}}', create("(none)", "i", mounts=" v1:/d:rw" * 16))
ask(f'body|create||{{"Image":"i","HostConfig":{{"Binds":[{FIFTEEN},"v1:/d"],{MOUNT}}}}}', "bad mount")
heading("other bodies are refused by their first fault")
refused(r"""
exec bad JSON: 
exec bad field Cmd: {}
exec bad field Cmd: {"Cmd":[]}
exec bad field AttachStdin: {"Cmd":"a","AttachStdin":1}
exec bad field AttachStdout: {"Cmd":"a","AttachStdout":1}
exec bad field AttachStderr: {"Cmd":"a","AttachStderr":1}
exec TTY is left out: {"Cmd":"a","Tty":true}
start bad field Detach: {"Detach":1}
start TTY is left out: {"Tty":true}
volume bad field Name: {}
volume bad volume name: {"Name":""}
volume bad field Driver: {"Name":"v1","Driver":1}
volume bad driver: {"Name":"v1","Driver":"nfs"}
""")
heading("filters of other forms are refused")
refused(r"""
filter invalid filter: []
filter invalid filter: null
filter invalid filter: {
filter invalid filter: {"type":["container"]}
filter invalid filter: {"name":"web"}
filter invalid filter: {"name":[1]}
filter invalid filter: {"name":{"web":1}}
filter invalid filter: {"name":null}
""")
heading("execs, volumes and filters are read")
table("body|", """
exec|{"Cmd":"cat","AttachStdin":true,"AttachStdout":true}=> words cat; stdin true; stdout true; stderr false
exec start|=> attached
exec start|{"Detach":true,"Tty":false}=> detached
volume|{"Name":"data","Driver":"","Labels":{"k":"v"}}=> name data; labels k=v
filter|{"name":{"web":true,"no":false},"label":["k=v","k"]}=> rows label=k=v,k name=web
filter|=> rows
filter|{}=> rows
""")

# ---- bodies of answers

BODY = (
    r'{"Image":"engine/tools","Cmd":["echo","hi"],"StopTimeout":-1,"OpenStdin":true,"Labels":{"b":"\"2\"","a":"1"},'
    r'"HostConfig":{"Binds":["v1:/d:ro"],"RestartPolicy":{"Name":"on-failure","MaximumRetryCount":3}}}'
)
INSPECT = (
    r'{"Args":["hi"],"Config":{"Cmd":["echo","hi"],"Image":"engine/tools:latest","Labels":{"a":"1","b":"\"2\""},'
    r'"OpenStdin":true,"StdinOnce":false,"StopSignal":"SIGTERM","StopTimeout":-1,"Tty":false},'
    r'"Created":"2000-02-29T00:00:00.000000000Z","HostConfig":{"AutoRemove":false,'
    r'"RestartPolicy":{"MaximumRetryCount":3,"Name":"on-failure"}},"Id":"0123","Image":"engine/tools:latest",'
    r'"Mounts":[{"Destination":"/d","Driver":"local","Mode":"","Name":"v1","RW":false,'
    r'"Source":"/var/lib/engine/volumes/v1/_data","Type":"volume"}],"Name":"/web","Path":"echo","RestartCount":2,'
    r'"State":{"Dead":false,"Error":"","ExitCode":1,"FinishedAt":"0001-01-01T00:00:00Z","OOMKilled":false,'
    r'"Paused":true,"Pid":1001,"Restarting":false,"Running":true,"StartedAt":"2023-11-14T22:13:20.700000000Z",'
    r'"Status":"paused"}}'
)
LIST = (
    r'[{"Command":"echo hi","Created":951782400,"Id":"0123","Image":"engine/tools:latest","Labels":{"a":"1",'
    r'"b":"\"2\""},"Mounts":[{"Destination":"/d","Driver":"local","Mode":"","Name":"v1","RW":false,'
    r'"Source":"/var/lib/engine/volumes/v1/_data","Type":"volume"}],"Names":["/web"],"Ports":[],"State":"exited",'
    r'"Status":"Exited (137)"}]'
)
EXEC = (
    r'{"CanRemove":false,"ContainerID":"0123","DetachKeys":"","ExitCode":null,"ID":"4567","OpenStderr":false,'
    r'"OpenStdin":true,"OpenStdout":true,"Pid":1002,"ProcessConfig":{"arguments":["5","10"],"entrypoint":"tick",'
    r'"privileged":false,"tty":false},"Running":true}'
)
VOLUME = (
    r'{"CreatedAt":"2000-02-29T00:00:00.000000000Z","Driver":"local","Labels":{},'
    r'"Mountpoint":"/var/lib/engine/volumes/v1/_data","Name":"v1","Options":{},"Scope":"local"}'
)
VOLUMES = (
    r'{"Volumes":[{"CreatedAt":"2000-02-29T00:00:00.000000000Z","Driver":"local","Labels":{},'
    r'"Mountpoint":"/var/lib/engine/volumes/v1/_data","Name":"v1","Options":{},"Scope":"local"}],"Warnings":[]}'
)
heading("bodies of answers")
CHECKED = '{"Image":"i","Cmd":"a","Healthcheck":{"Test":["CMD","flaky","2"],"Interval":1999999},"HostConfig":{"AutoRemove":true}}'
WITH_CHECK = (
    r'{"Args":[],"Config":{"Cmd":["a"],"Healthcheck":{"Interval":1000000,"Retries":3,"StartPeriod":0,'
    r'"Test":["CMD","flaky","2"],"Timeout":30000000000},"Image":"engine/tools:latest","Labels":{},"OpenStdin":false,'
    r'"StdinOnce":false,"StopSignal":"SIGTERM","StopTimeout":10,"Tty":false},"Created":"2000-02-29T00:00:00.000000000Z",'
    r'"HostConfig":{"AutoRemove":true,"RestartPolicy":{"MaximumRetryCount":0,"Name":"no"}},"Id":"0123",'
    r'"Image":"engine/tools:latest","Mounts":[],"Name":"/web","Path":"a","RestartCount":2,'
    r'"State":{"Dead":false,"Error":"","ExitCode":1,"FinishedAt":"0001-01-01T00:00:00Z","OOMKilled":false,'
    r'"Paused":true,"Pid":1001,"Restarting":false,"Running":true,"StartedAt":"2023-11-14T22:13:20.700000000Z",'
    r'"Status":"paused"}}'
)
for question, answer in ((f"inspect|{BODY}", INSPECT), (f"inspect|{CHECKED}", WITH_CHECK), (f"list|{BODY}", LIST), ("list of none|", "[]"),
                         ('exec|{"Cmd":["tick","5","10"]}', EXEC), ("volume|v1", VOLUME), ("volumes|v1", VOLUMES)):
    ask(f"view|{question}", answer)

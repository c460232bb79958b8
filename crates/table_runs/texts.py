"""Ids, moments, names, signals, truth values, policies, delays and parts of texts."""
from lines import *

heading("ids: 24 bytes of a ChaCha20 keystream, and the number")
table("text|id|", """
zeros|0=> 76b8e0ada0f13d90405d6ae55386bd28bdd219b8a08ded1a0000000000000000
zeros|1=> ef3fdfd6c61578fbf5cf35bd3dd33b8009631634d21e42ac0000000000000001
counting|4294967296=> 2e180680f4d93645d1b9381fc0b02e6fd028c32dcfba0b5b0000000100000000
counting|18446744073709551615=> d585eee59d28ce5daad02e63b22f1ef82febfb3ed1bda3adffffffffffffffff
""")
heading("moments are shown to the nanosecond")
table("text|moment|", """
none=> 0001-01-01T00:00:00Z
0=> 1970-01-01T00:00:00.000000000Z
951782400000=> 2000-02-29T00:00:00.000000000Z
1700000000000=> 2023-11-14T22:13:20.000000000Z
1700000000700=> 2023-11-14T22:13:20.700000000Z
9000000000000=> 2255-03-14T16:00:00.000000000Z
""")
heading("names have two characters or more")
each("text|name|", ["ab", "/ab", "a-", "0_", "Z.", "az", "AZ", "09", "web-1.x_y"], "yes")
each("text|name|", ["", "/", "a", "/a", "//ab", "-a", ".a", "_a", "a/b", "a b", "a:", "a@", "a[", "a`", "a{", "aé"], "no")
each("text|volume name|", ["ab"], "yes")
each("text|volume name|", ["/ab"], "no")
heading("signals are read by number and name")
for text, number in (("1", 1), ("9", 9), ("09", 9), ("31", 31), ("HUP", 1), ("kill", 9), ("SIGkill", 9), ("sigTERM", 15),
                     ("IO", 29), ("SYS", 31), ("SIGSYS", 31)):
    ask(f"text|signal|{text}", f"Some(Signal {{ number: {number} }})")
each("text|signal|", ["", "0", "00", "32", "99", "009", "-1", "+9", " 9", "9a", "SIG", "SIGSIGHUP", "SIG9", "POLL", "KILLS"],
     "None")
each("text|signal name|", ["15"], "SIGTERM")
heading("truth values are true but for five words")
each("text|truth|", ["", "0", "no", "false", "none", "None", "FALSE", r" \t", r"\tnO ", " 0"], "no")
each("text|truth|", ["1", "true", "00", "n", "off", "n o", "0x", "falsé", r"\nno"], "yes")
heading("only on-failure has a maximum")
table("text|policy|", """
|0=> Ok(No)
no|0=> Ok(No)
always|0=> Ok(Always)
unless-stopped|0=> Ok(UnlessStopped)
on-failure|0=> Ok(OnFailure(0))
on-failure|2147483647=> Ok(OnFailure(2147483647))
no|1=> Err(Bad)
always|-1=> Err(Bad)
on-failure|-1=> Err(Bad)
on-failure|2147483648=> Err(Bad)
No|0=> Err(Bad)
""")
heading("delays double up to a minute")
for delay, after in ((0, 100), (100, 200), (32000, 60000), (60000, 60000)):
    ask(f"text|delay|{delay}", f"Again({after})")
heading("a part is found wherever it stands")
each("text|part|abab|", ["", "a", "ab", "bab", "abab", "b"], "yes")
each("text|part|abab|", ["c", "ba ", "abb", "ababa"], "no")

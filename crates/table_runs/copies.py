"""Copies of what stands in no line of a journal, and what grows."""
from lines import *

heading("copies of bytes and of replies that begin a stream; logs, numbers and scripts that grow")
table("copy|", """
bytes|cd=> cd cd
lent|=> ef
log reply|=> LogSpec { owner: Exec(1), out: true, err: false, stamps: false, first: 2, stop: RunEnd(3), least: 4, greatest: 5, feed: Some(6) }
event reply|a=b=> events from 8 to Some(9), rows label=a=b
open log|abc=> 7 left, 3 bytes, 1 records
owned log|x=> 1 records, 1 bytes, 1 logs
numbers|=> [4]
script|=> 3 ops
""")

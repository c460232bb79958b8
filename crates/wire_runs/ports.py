"""Sources, sinks and clocks; doors and links, in memory and over TCP."""
from lines import *

heading("sources give their bytes in pieces, also behind a read that fails")
ask("port|source|3|1|hello", " hel (failed) lo")
ask("port|reader|abcdefghij", " abcdefgh ij")
heading("sinks take all but the failing writes, and a full writer fails")
ask("port|sink|1|a|(probe)|b|(probe)|c",
    "Ok(()), Err(Failed), Err(Failed), Ok(()), Ok(()), finished Ok(()); ac by 3 writes, 0 short")
ask("port|writer|abc|de", "Ok(()), Err(Failed), finished Ok(())")
ask("port|output|written", "writtenOk(()), finished Ok(())")
heading("clocks go on by steps or moments, and stop; a twin's stops count")
MOST = 2**64 - 1
ask(f"port|clock|{MOST - 5}|4|1|now|pause 50|now|twin pause 50|pause 50", f"{MOST - 5} | Go | {MOST} | Stop | Stop | ")
ask("port|moments|5 3|1|now|pause 50|now|twin now|twin pause 50|now|pause 50", "5 | Go | 3 | 3 | Stop | 3 | Stop | ")
ask("port|moments||none|now", "0 | ")
ask("port|system|", "true Go true")
heading("connections come in order and are kept as they end")
ask("door|memory|1|one|two", "Ok(()), failed, came, came, nobody; 1 x; 2 x")
ask("door|none|127.0.0.1:1", "Ok(()), true")
heading("a link leads to what was put there")
ask("door|link|0|one", "false, true, false, 1 left" + ", 127.0.0.1:1" * 3)
heading("a link and a door meet over TCP, at addresses of this machine alone")
ask("door|tcp|ask|tell", "Ok(()) ask, Ok(()) tell, true")
ask("door|probe|", "Ok(()), Ok(()), Ok(()), Ok(()), Err(Failed)")
each("door|reached|", ["0.0.0.0:0", "localhost:0", "127.0.0.1", "[::1]:0", "127.0.0.1:65536"], "false false")

"""Streams of frames: a type, three zero bytes, the size in four bytes, the payload; and responses, however they are cut."""
from lines import *


def numbers(*parts):
    return " ".join(str(byte) for part in parts for byte in part)


def frame(kind, size, payload=b""):
    return numbers([kind, 0, 0, 0], size.to_bytes(4, "big"), payload)


heading("a header is the type, three zeros and the size")
ask("frame|header|stderr|258", "[2, 0, 0, 0, 0, 0, 1, 2]")
ask("frame|header|stdin|4294967295", "[0, 0, 0, 0, 255, 255, 255, 255]")
heading("a frame is read whole and in pieces")
for size in (11, 1, 4, 8, 9):
    ask(f"frame|read|{size}|{frame(1, 3, b'hi' + bytes([10]))}", r'"hi\n", Whole')
heading("a fault is told at its byte, and stays")
ask("frame|items|3|1 0 0|", "Err(BadType { at: 0 }) | " * 3 + "Faulted(BadType { at: 0 })")
ask("frame|items|1 0 1", "Err(BadPad { at: 2 }) | Faulted(BadPad { at: 2 })")
ask(f"frame|items|{frame(2, 2, b'a')}|98", "Ok((Stderr, [97])) | Ok((Stderr, [98])) | Whole")
heading("a stream ends whole, inside a header or inside a payload")
ask(f"frame|read|3|{frame(2, 0)}", '"", Whole')
ask("frame|read|6|1 0 0 0 0 0", '"", CutHeader(6)')
ask(f"frame|read|10|{frame(1, 5, b'ab')}", '"ab", CutPayload(3)')
heading("a frame and the header of an empty one, which end behind each of their bytes: whole between two frames alone")
HI = [1, 0, 0, 0, 0, 0, 0, 3, *b"hi\n", 1, 0, 0, 0, 0, 0, 0, 0]
ENDS = [*(f"CutHeader({n})" for n in range(1, 8)), *(f"CutPayload({n})" for n in (3, 2, 1)), "Whole",
        *(f"CutHeader({n})" for n in range(1, 8)), "Whole"]
CAME = ("", "h", "hi", r"hi\n")
for length, ended in enumerate(ENDS, 1):
    for size in (1, 19):
        ask(f"frame|read|{size}|{numbers(HI[:length])}", f'"{CAME[min(max(length - 8, 0), 3)]}", {ended}')
heading("a mebibyte is read in pieces of any size")
for size in (1, 7, 8, 9):
    ask(f"frame|many|{size}|32|32768", "1048576 bytes, Whole")

# ---- responses

API = r"Api-Version: 1.43\r\n"
RESPONSES = (
    (r"HTTP/1.1 201 Created\r\n" + API + r"Connection: close\r\nContent-Length: 11\r\nContent-Type: application/json\r\n"
     r'Server: engined\r\n\r\n{"Id":"7f"}', '201 from None ({"Id":"7f"}) End'),
    (r"HTTP/1.1 200 OK\r\n" + API + r"Content-Type: application/json\r\nServer: engined\r\nTransfer-Encoding: chunked\r\n"
     r"X-Engine-From: 12\r\n\r\n3\r\na\r\n\r\n1a\r\nabcdefghijklmnopqrstuvwxyz\r\n0\r\n\r\n",
     "200 from Some(12) (a\r\nabcdefghijklmnopqrstuvwxyz) End"),
    (r"HTTP/1.1 101 UPGRADED\r\nContent-Type: application/vnd.docker.multiplexed-stream\r\nConnection: Upgrade\r\n"
     r"Upgrade: tcp\r\n\r\nabc", "101 from None (abc) End"),
)
heading("responses are read however they are cut: a sized body, chunks and a takeover")
for size in (1, 7, 1000):
    for text, answer in RESPONSES:
        ask(f"response|{size}|{text}", answer)
heading("heads of others are refused at the byte that shows it, and are cut short before it")
for text in ("X", "HTTP/1.0", "HTTP/1.1 6", "HTTP/1.1 200 Ok", r"HTTP/1.1 204 No Content\r\n" + API + "Cont",
             r"HTTP/1.1 200 OK\r\n" + API + "Content-Length: 18446744073709551616",
             r"HTTP/1.1 200 OK\r\n" + API + "Content-Length: 01"):
    ask(f"response|1|{text}", "no head at 0")
    ask(f"response|100|{text[:-1]}", "cut short")
heading("a bad chunk is told by its first byte")
STREAM = (r"HTTP/1.1 200 OK\r\n" + API + r"Content-Type: text/plain; charset=utf-8\r\nServer: engined\r\n"
          r"Transfer-Encoding: chunked\r\n\r\n2\r\nok\r\n")
AT = len(STREAM.replace(r"\r", "\r").replace(r"\n", "\n"))
for chunk in ("g", "10000000000000000", r"1\r\nab", r"0\r\n:"):
    ask(f"response|1|{STREAM}{chunk}", f"200 from None (ok{'a' if 'ab' in chunk else ''}) BadChunk {{ at: {AT} }}")
heading("a size of sixteen digits may still be a chunk's")
ask(f"response|1|{STREAM}1000000000000000", "200 from None (ok) CutShort")

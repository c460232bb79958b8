"""Heads, answers and chunks that are written."""
from lines import *

OK = "HTTP/1.1 200 OK\r\nApi-Version: 1.43\r\n"
JSON = "Content-Type: application/json\r\n"
TEXT = "Content-Type: text/plain; charset=utf-8\r\n"
SERVER = "Server: engined\r\n"
CHUNKS = "Transfer-Encoding: chunked\r\n"
CLOSE = "Connection: close\r\n"


def write(question, *parts, end="written"):
    ask(f"write|{question}", "".join(parts) + f"({end})")


heading("each form of head")
write("head|201|stay|json|87", "HTTP/1.1 201 Created\r\nApi-Version: 1.43\r\nContent-Length: 87\r\n", JSON, SERVER, "\r\n")
write("head|404|close|json|0", "HTTP/1.1 404 Not Found\r\nApi-Version: 1.43\r\n", CLOSE, "Content-Length: 0\r\n", JSON, SERVER, "\r\n")
write("head|200|stay|plain|2", OK, "Content-Length: 2\r\n", TEXT, SERVER, "\r\n")
write("head|204|close|empty|", "HTTP/1.1 204 No Content\r\nApi-Version: 1.43\r\n", CLOSE, SERVER, "\r\n")
write("head|200|stay|frames|", OK, "Content-Type: application/vnd.docker.multiplexed-stream\r\n", SERVER, CHUNKS, "\r\n")
write("head|200|close|json chunks|18446744073709551615", OK, CLOSE, JSON, SERVER, CHUNKS, "X-Engine-From: 18446744073709551615\r\n",
      "\r\n")
write("head|200|stay|json chunks|", OK, JSON, SERVER, CHUNKS, "\r\n")
write("head|200|stay|plain chunks|", OK, TEXT, SERVER, CHUNKS, "\r\n")
write("head|200|close|takeover|", "HTTP/1.1 200 OK\r\nContent-Type: application/vnd.docker.raw-stream\r\n\r\n")
write("head|200|stay|upgrade|", "HTTP/1.1 101 UPGRADED\r\nContent-Type: application/vnd.docker.multiplexed-stream\r\n",
      "Connection: Upgrade\r\nUpgrade: tcp\r\n\r\n")
heading("refusals have their phrase")
for status, phrase, length in ((400, "Bad Request", 25), (409, "Conflict", 22), (413, "Payload Too Large", 31),
                               (417, "Expectation Failed", 32), (431, "Request Header Fields Too Large", 45),
                               (500, "Internal Server Error", 35), (501, "Not Implemented", 29),
                               (503, "Service Unavailable", 33), (505, "HTTP Version Not Supported", 40)):
    write(f"refusal|{status}", f"HTTP/1.1 {status} {phrase}\r\nApi-Version: 1.43\r\n", CLOSE, f"Content-Length: {length}\r\n", JSON,
          SERVER, "\r\n", f'{{"message":"{phrase}"}}')
heading("a short answer is one write, and of a long one the second fails")
write("answer|4000", OK, SERVER, "\r\n", "x" * 4000)
write("answer|5000", OK, SERVER, "\r\n", end="failed")
heading("chunks tell their size")
write("chunk|1", "1\r\nx\r\n")
write("chunk|255", "ff\r\n", "x" * 255, "\r\n")
write("chunk|5000", "1388\r\n", "x" * 5000, "\r\n")
write("chunk|0", "0\r\n\r\n")

"""Values on lines."""
from lines import *

heading("a value is written on a line, keys in byte order and no blank, and is read again; it is read of a text of another form")
ask("value|written|", '{"after":-1,"words":["é","\\n"]}\n')
ask(r'value|text| {"words": ["é","\u000a"], "after": -1}', "that value")
ask("value|text|[1]", "another value")
heading("no JSON, no UTF-8, nothing, a value behind the value, 128 brackets, and lines without their end")
for question in ('text|{"a":}', "bytes|34 255 34", "text|", "text|1 2", "nested|128", "line|{}", "line|"):
    ask(f"value|{question}", "no value")

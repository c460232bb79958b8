"""Programs by their words."""
from lines import *

heading("words name the programs")
table("run|ops|", """
hello=> 2 ops
echo a b=> 2 ops
cat=> 2 ops
sleep 10=> 2 ops
tick 2 10=> 5 ops
tick 0 10=> 2 ops
exit 7=> 1 ops
trap=> 1 ops
deaf=> 1 ops
flaky 1=> 2 ops
noise 65539=> 4 ops
stuck 10=> 2 ops
nope=> no program
""")
heading("what they write")
table("run|", r"""
first|hello=> at 100 "Hello from engine\n"
fed|cat=> at 205 "abc", at 205 "de", due Some(300)
""")

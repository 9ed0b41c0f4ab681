"""Runs a tool that is written in Python many times with one start of Python, which takes longer than the tool does.

    python3 tests/many.py TOOL

A line of the standard input is a run: OUTPUT SAID ARGUMENTS.., the files for what it prints and for what it says on its standard error (- leaves
that where it is), and its arguments. A copy of this process becomes the tool, with nothing to read; its exit status is printed here, a line a run.
"""
import os
import sys

tool = sys.argv[1]
with open(tool, encoding="utf-8") as f:
    code = compile(f.read(), tool, "exec")
for line in sys.stdin:
    output, said, *arguments = line.split()
    copy = os.fork()
    if copy == 0:
        break
    print(os.waitstatus_to_exitcode(os.waitpid(copy, 0)[1]), flush=True)
else:
    sys.exit()

# a copy alone comes here, and it ends as the tool ends
os.dup2(os.open(os.devnull, os.O_RDONLY), 0)
for number, path in (1, output), (2, said):
    if path != "-":
        os.dup2(os.open(path, os.O_WRONLY | os.O_CREAT | os.O_TRUNC, 0o666), number)
sys.argv = [tool, *arguments]
exec(code, {"__name__": "__main__"})

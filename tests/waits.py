"""waits.py PROGRAM: gives the program lines bit by bit over a pipe, and takes each answer before it gives more."""
import os
import select
import subprocess
import sys

GIVEN = [
    (b"+ ::1 7\n", b"::1 added 7 0\n"),
    (b"? ::", b""),
    (b"1\n? ::2\n? :", b"::1 held 7 1\n::2 none 0 0\n"),
    (b":1\n", b"::1 held 7 1\n"),
    (b"+ 0::1 8\n", b"refused 12\n"),
    (b"=", b""),
    (b" 0::1 9\n", b"::1 relabelled 7 1\n"),
    (b"x" * 64, b""),
    (b"x", b"refused 11\n"),
    (b"x" * 1000, b""),
    (b"\n- ::1\n", b"::1 gone 9 1\n"),
    (b"? ::1", b""),
]


def taken(out, n):
    got = b""
    while len(got) < n and select.select([out], [], [], 10)[0]:
        more = os.read(out.fileno(), n - len(got))
        if not more:
            break
        got += more
    return got


run = subprocess.Popen([sys.argv[1]], stdin=subprocess.PIPE, stdout=subprocess.PIPE, bufsize=0)
for given, due in GIVEN:
    run.stdin.write(given)
    got = taken(run.stdout, len(due))
    if got != due:
        sys.exit(f"{given!r}: {due!r} is due, and {got!r} came")
run.stdin.close()
if run.stdout.read() != b"::1 none 0 0\n":
    sys.exit("the last line is not answered")

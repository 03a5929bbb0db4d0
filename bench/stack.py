"""stack.py OBJECT [NAME..]: the most bytes of stack that each function needs, read from its machine code: along every
way through it, what it pushes, takes and uses below the stack pointer, and what the functions that it calls need, with
the return addresses. Without names, the exported functions. A function from elsewhere counts with its return address
alone, and is listed.

Where the code has a form that is not known here it ends with 1, so that no way is left out unseen: recursion other than
that named below, a call by pointer, a stack pointer that comes from elsewhere, two depths at one place, a return at a
depth other than the entry's.
"""
import re
import subprocess
import sys

LINE = re.compile(r"^ *([0-9a-f]+):\t(.*)$")
RELOCATION = re.compile(r"^\t+([0-9a-f]+): (R_X86_64_\w+)\t(.*)$")
HEAD = re.compile(r"^([0-9a-f]+) <(.*)>:$")
ENDS = re.compile(r"(notrack )?(jmp|ret)")
FILL = re.compile(r"nop|int3|data16|cs nop|xchg")
# These call themselves, each time for one byte less, and serve fields that start in a buffer's last seven bytes.
NESTED = {"bits::near_end::get": 7, "bits::near_end::put": 7}


def stop(what):
    sys.exit("stack.py: " + what)


def functions(path):
    """Of each function its instructions in order: (place, words, relocation or None)."""
    objdump = ["objdump", "-dr", "--no-show-raw-insn", path]
    out = subprocess.run(objdump, capture_output=True, text=True, check=True).stdout
    found, here = {}, None
    for line in out.splitlines():
        if m := HEAD.match(line):
            here = found.setdefault(m[2], [])
        elif m := RELOCATION.match(line):
            here[-1][2] = m[3]
        elif (m := LINE.match(line)) and here is not None:
            here.append([int(m[1], 16), m[2].split("#")[0].strip(), None])
    return found


def callee(place, words, relocation, known):
    """The name of what a call or a jump out of the function goes to."""
    if relocation:
        return re.sub(r"^\.text\.|[-+]0x[0-9a-f]+$", "", relocation)
    m = re.search(r"<(.*?)>$", words)
    if not m or m[1] not in known:
        stop(f"a call that it cannot follow: {words}")
    return m[1]


def change(words):
    """By how much an instruction makes the stack deeper; None if it moves the stack pointer in a way not known here."""
    op, _, args = words.partition(" ")
    args = args.strip()
    if op in ("push", "pushq"):
        return 8
    if op in ("pop", "popq"):
        return -8
    if args.endswith(",%rsp"):
        if op in ("cmp", "test", "cmpq"):
            return 0
        if m := re.fullmatch(r"\$(-?0x[0-9a-f]+),%rsp", args):
            if op in ("sub", "subq"):
                return int(m[1], 16)
            if op in ("add", "addq"):
                return -int(m[1], 16)
        return None
    return 0


def target(words):
    m = re.match(r"\S+\s+([0-9a-f]+) <", words)
    return int(m[1], 16) if m else None


def depths(name, code, known):
    """The deepest place of one function, and at which depth it calls what."""
    at = {place: i for i, (place, _, _) in enumerate(code)}
    seen, calls, deepest, tables = {}, [], 0, []
    todo = [(0, 0)]
    while todo or tables:
        if not todo:  # what only a table of jumps leads to: the starts behind a jump or a return
            depth = tables.pop()
            for i in range(1, len(code)):
                if i not in seen and ENDS.match(code[i - 1][1]) and not FILL.match(code[i][1]):
                    todo.append((i, depth))
                    tables.append(depth)
                    break
            continue
        i, depth = todo.pop()
        while True:
            if i in seen:
                if seen[i] != depth:
                    stop(f"{name}: two depths at {code[i][0]:x}")
                break
            seen[i] = depth
            place, words, relocation = code[i]
            if m := re.search(r"-0x([0-9a-f]+)\(%rsp", words):  # the red zone
                deepest = max(deepest, depth + int(m[1], 16))
            op = words.split()[0]
            if op.startswith("ret"):
                if depth:
                    stop(f"{name}: a return at depth {depth}")
                break
            if op.startswith("call"):
                if "*" in words and not relocation:
                    stop(f"{name}: a call by pointer: {words}")
                calls.append((depth, callee(place, words, relocation, known)))
            elif op.startswith("j") or op == "notrack":
                if "*" in words:
                    tables.append(depth)
                    break
                to = None if relocation else target(words)
                if to is None or to not in at:  # out of the function: a call that ends it
                    calls.append((depth - 8, callee(place, words, relocation, known)))
                else:
                    todo.append((at[to], depth))
                if op == "jmp":
                    break
            elif op in ("ud2", "hlt"):
                break
            else:
                step = change(words)
                if step is None:
                    stop(f"{name}: the stack pointer comes from elsewhere: {words}")
                depth += step
                deepest = max(deepest, depth)
            i += 1
            if i == len(code):
                stop(f"{name}: the code runs on behind its end")
    return deepest, calls


def needs(known):
    """The need of each function, its return address included, and what it calls from elsewhere."""
    local = {name: depths(name, code, known) for name, code in known.items()}
    done = {}

    def need(name, above):
        if name in above:
            stop(f"recursion: {name}")
        if name not in known:
            return 8, {name}
        if name not in done:
            deepest, calls = local[name]
            outside = set()
            own = [depth + 8 for depth, called in calls if called == name]
            if own and name not in NESTED:
                stop(f"recursion: {name}")
            for depth, called in calls:
                if called == name:
                    continue
                n, more = need(called, above + [name])
                deepest = max(deepest, depth + n)
                outside |= more
            done[name] = deepest + 8 + max(own, default=0) * (NESTED.get(name, 1) - 1), outside
        return done[name]

    return {name: need(name, []) for name in known}


if __name__ == "__main__":
    known = functions(sys.argv[1])
    all_needs = needs(known)
    for name in sys.argv[2:] or sorted(n for n in known if n.startswith("shelfegret_")):
        n, outside = all_needs[name]
        print(f"{name} {n} {','.join(sorted(outside)) or '-'}")

"""full.py PROGRAM: which addresses the program refuses with 8, which deletes make room again, and that addresses which
are held need no room. The addresses are chosen by their list, as docs/FILTER.md gives it."""
import ipaddress
import subprocess
import sys

LISTS, SIB, NOB, SIO, A, B, P = 256, 4, 64, 3, 97, 31, 257


def address(number, entry):
    """The address with this entry in the list of this number."""
    index = number ^ (A * entry + B) % P % LISTS
    return str(ipaddress.IPv6Address(index << 120 | entry))


def addresses(number, n, first=0):
    return [address(number, first + entry) for entry in range(n)]


def enters(lengths):
    """Lines that fill list 0, 1, .. so far."""
    return [f"+ {a} 0" for number, n in enumerate(lengths) for a in addresses(number, n)]


def blocks(n):
    return max(0, -((SIB - n) // SIO))


def answers(lines):
    given = "".join(line + "\n" for line in lines)
    return subprocess.run([sys.argv[1]], input=given, capture_output=True, text=True, check=True).stdout.splitlines()


def expect(given, due, what):
    if given != due:
        sys.exit(f"{what}: {due!r} is due, and {given!r} came")


# The fewest: all addresses in one list. The refused one is found nowhere, and compared is its list's length.
fewest = NOB * SIO + SIB
expect(fewest, 196, "the fewest")
one = addresses(5, fewest + 1)
expect([a.split(" ", 1)[1] for a in answers([f"+ {a} 0" for a in one] + ["? " + one[-1]])],
       [f"added 0 {n}" for n in range(fewest)] + ["8", f"none 0 {fewest}"], "one list")

# An address that is held is refused with 12, not 8, and keeps its label; it can be relabelled, each in its place. One
# that is not held has nothing to relabel.
held = [f"{a} relabelled {(n + 1) % 256} {n + 1}" for n, a in enumerate(one[:-1])]
given = ([f"+ {a} {(n + 1) % 256}" for n, a in enumerate(one[:-1])] + [f"+ {a} 7" for a in one]
         + [f"= {a} {n}" for n, a in enumerate(one)] + ["= " + one[-1], f"= {one[-1]} 256"])
expect(answers(given)[fewest:], ["refused 12"] * fewest + ["refused 8"] + held
       + [f"{one[-1]} none 0 {fewest}"] * 2 + ["refused 6"], "one list, and all its addresses again")
expect([a.split(" ", 1)[1] for a in answers(given + ["? " + a for a in one[:-1]])[-fewest:]],
       [f"held {n} {n + 1}" for n in range(fewest)], "the new labels")

# The most: all slots. Then each list refuses.
most = enters([fewest] + [SIB] * (LISTS - 1))
expect(len(most), 1216, "the most")
words = [a.split()[1] for a in answers(most + ["+ " + address(number, 1000) for number in range(LISTS)])]
expect(words, ["added"] * len(most) + ["8"] * LISTS, "every slot")
again = answers(most + most + [line.replace("+", "=")[:-1] + "255" for line in most])[len(most):]
expect(again[:len(most)], ["refused 12"] * len(most), "every address again")
expect([a.split()[1:3] for a in again[len(most):]], [["relabelled", "0"]] * len(most), "every label")

# No spread of fewer addresses does it: `least[u]` is the fewest in lists that use u blocks together, each list's last
# block with one entry; beside them is a list without a vacant slot, which uses v.
least = [0]
for u in range(1, NOB + 1):
    least.append(min(least[u - v] + SIB + SIO * (v - 1) + 1 for v in range(1, u + 1)))
expect(min(least[NOB - v] + SIB + SIO * v for v in range(NOB + 1)), fewest, "the fewest of all spreads")

# Deletes: lists of many lengths use all blocks, and one of them without a vacant slot refuses. A delete makes room
# exactly if it is one from that list, or if it empties an overflow block: its list's last, with one entry.
for full in (SIB, SIB + SIO, SIB + 5 * SIO):
    lengths = [full] + list(range(1, 14))
    left = NOB - sum(blocks(n) for n in lengths)
    lengths.append(SIB + SIO * left)
    table = enters(lengths)
    new = address(0, 1000)
    expect(answers(table + ["+ " + new, "? " + new])[-2:], ["refused 8", f"{new} none 0 {full}"], "a full list")
    for number, n in enumerate(lengths):
        room = number == 0 or n > SIB and n % SIO == (SIB + 1) % SIO
        for entry in {0, n // 2, n - 1}:
            old = address(number, entry)
            gone, added, back = [a.split() for a in answers(table + ["- " + old, "+ " + new, "+ " + old])[-3:]]
            expect(gone[1], "gone", f"delete from {n}")
            expect(added[1], "added" if room else "8", f"room after a delete from {n} beside a list of {full}")
            if not room:  # then what was deleted can come back
                expect(back[1], "added", f"{old} again")

# Addresses whose entries differ by multiples of p and whose first bytes are equal are in one list, for all a, b.
same = [str(ipaddress.IPv6Address(0x20 << 120 | 0xdb8 + P * k)) for k in range(fewest + 1)]
expect([a.split(" ", 1)[1] for a in answers([f"+ {a} 0" for a in same])], [f"added 0 {n}" for n in range(fewest)] + ["8"],
       "entries that are equal modulo p")

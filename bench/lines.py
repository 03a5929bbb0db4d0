"""lines.py N SEED [rough]: N lines for the program: 20 % enter, 15 % delete, 65 % find, over 900 addresses in several
spellings. With "rough", one address in eight is of IPv4, one find in five is a relabel, one label in four is left out,
and one line in ten is broken in some way."""
import ipaddress
import random
import sys

count, seed = int(sys.argv[1]), int(sys.argv[2])
rough = sys.argv[3:] == ["rough"]
random.seed(seed)


def address():
    if rough and random.random() < 0.125:
        return 0xFFFF << 32 | random.getrandbits(32)
    if random.random() < 0.5:
        return random.getrandbits(128)
    return (0x20010DB8 << 96) | random.getrandbits(random.choice([16, 32, 64]))


def spelling(key):
    plain = ipaddress.IPv6Address(key)
    r = random.random()
    if key >> 32 == 0xFFFF and r < 0.6:
        return ("" if r < 0.5 else "::FFFF:") + str(ipaddress.IPv4Address(key & 0xFFFFFFFF))
    if r < 0.6:
        return str(plain)
    if r < 0.75:
        return plain.exploded
    if r < 0.9:
        return str(plain).upper()
    return ":".join("%x" % (key >> 112 - 16 * i & 65535) for i in range(8))


def labelled(command, key):
    if rough and random.random() < 0.25:
        return "%s %s" % (command, spelling(key))
    return "%s %s %d" % (command, spelling(key), random.randrange(256))


def broken(line):
    r = random.randrange(6)
    at = random.randrange(len(line) + 1)
    if r == 0:
        return line[:at] + random.choice(" :.\t\r\0gF09+-=?") + line[at:]
    if r == 1:
        return line[:at] + line[at + 1:]
    if r == 2:
        return line[:at]
    if r == 3:
        return line + " " + str(random.randrange(1100))
    if r == 4:
        return line + random.choice("0 :") * random.randrange(40)
    return random.choice("+-=? x") * random.randrange(70)


keys = [address() for _ in range(900)]
for _ in range(count):
    key = random.choice(keys)
    r = random.random()
    if r < 0.2:
        line = labelled("+", key)
    elif r < 0.35:
        line = "- " + spelling(key)
    elif rough and r < 0.48:
        line = labelled("=", key)
    else:
        line = "? " + spelling(key)
    if rough and random.random() < 0.1:
        line = broken(line)
    sys.stdout.write(line + "\n")

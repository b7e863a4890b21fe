#!/usr/bin/env python3
"""What `kurbelna strings` must write, worked out a second time.

    strings_oracle.py FILE             the complete expected output for the input in FILE
    strings_oracle.py --comments FILE  check each result against the comment line above its string

This is no port of the program: it reads a string from the left and notes each step as it takes it.
A comment above a string has, behind its first colon, the result's essence: `44 at 1` for a fault, the reason
for a refused line, or the first word of the result line and any of its fields.
"""
import re
import sys

TYPES = {1: "Data", 2: "Data_Long", 3: "RR", 4: "Error", 5: "RD"}
ADDRESS_TYPES = {0: "IPv4", 1: "IPv6", 2: "MSISDN"}
ERROR_CODES = ["unknown", "protocol error", "version", "external addressing not supported"]
RELEASE_CODES = ["unknown", "timer", "idle", "user"]
CHARACTERS = "0123456789*#abc"


class Fault(Exception):
    def __init__(self, cause, place, why):
        self.cause, self.place, self.why = cause, place, why

    def words(self):
        layer = "header" if self.cause == 45 else "pdu"
        return f"fault cause={self.cause} place={self.place} layer={layer}"


class Reading:
    """One string: `words` once it is read, and the steps taken so far."""

    def __init__(self, octets):
        self.s = octets
        self.steps = []

    def step(self, place, text):
        self.steps.append(f"at {place}: {text}")

    def read(self):
        s = self.s
        if len(s) == 0:
            raise Fault(41, 0, "the string is empty, and a PDU has at least one octet")
        version, kind, more = s[0] >> 5, (s[0] >> 1) & 0b1111, s[0] & 1
        if version != 0:
            raise Fault(43, 0, f"version {version}, and only version 0 is known")
        if kind not in TYPES:
            raise Fault(42, 0, f"no PDU type {kind}: types are 1 to 5")
        name = TYPES[kind]
        if more and name not in ("Data", "Data_Long"):
            raise Fault(42, 0, f"more to send is set in {name}: only Data and Data_Long may set it")
        self.step(0, f"version 0, type {kind} ({name}), more to send: {'yes' if more else 'no'}")
        if name == "RR":
            if len(s) > 1:
                raise Fault(46, 1, "RR has no octets behind the first")
            return "rr"
        if name == "Error":
            return f"error code={self.code(name, ERROR_CODES)}"
        if name == "RD":
            return f"rd code={self.code(name, RELEASE_CODES)}"
        if name == "Data":
            return f"data more={more} {self.body(1)}"
        address, after = self.address()
        return f"data_long more={more} address={address} {self.body(after)}"

    def code(self, name, meanings):
        s = self.s
        if len(s) < 2:
            raise Fault(46, len(s), f"{name} has a code octet behind the first, and it is missing")
        if len(s) > 2:
            raise Fault(46, 2, f"{name} has one code octet behind the first, and no more")
        if s[1] > 3:
            raise Fault(42, 1, f"no {name} code {s[1]}: codes are 0 to 3")
        self.step(1, f"code {s[1]} ({meanings[s[1]]})")
        return s[1]

    def address(self):
        """The address in words, and the place behind its field."""

        def wrong(why):
            raise Fault(44, 1, why)

        s = self.s
        if len(s) < 2:
            wrong("the address field is missing")
        kind, length = divmod(s[1], 32)
        if kind not in ADDRESS_TYPES:
            wrong(f"no address type {kind}: types are 0 to 2")
        content = s[2 : 2 + length]
        if len(content) < length:
            wrong(f"address length {length} reaches beyond the string, which has {len(content)} more")
        if kind == 0:
            if length != 4:
                wrong(f"an IPv4 address has length 4, not {length}")
            text = ".".join(map(str, content))
        elif kind == 1:
            if length != 16:
                wrong(f"an IPv6 address has length 16, not {length}")
            text = ":".join(content[i : i + 2].hex() for i in range(0, 16, 2))
        else:
            text = self.number(content, wrong)
        self.step(1, f"address type {kind} ({ADDRESS_TYPES[kind]}), length {length}: {text}")
        return f"{ADDRESS_TYPES[kind].lower()}:{text}", 2 + length

    def number(self, content, wrong):
        if len(content) < 2:
            wrong(f"a number needs a digit count and a type octet: length {len(content)} is too short")
        count, of = content[0], content[1]
        if not 1 <= count <= 20:
            wrong(f"digit count {count}: a number has 1 to 20 digits")
        asked = 2 + -(-count // 2)
        if len(content) != asked:
            wrong(f"digit count {count} asks for length {asked}, not {len(content)}")
        if of not in (0x81, 0x91):
            wrong(f"number type octet {of:02X}: it must be 81 or 91")
        text = "+" if of == 0x91 else ""
        for k in range(0, count, 2):
            place = 4 + k // 2
            octet = self.s[place]
            low, high = octet & 15, octet >> 4
            if low == 15:
                wrong(f"octet {octet:02X} at {place} has 15 in its low half, which must be a digit")
            text += CHARACTERS[low]
            if k + 1 == count:
                if high != 15:
                    wrong(f"octet {octet:02X} at {place} must have 15 in its high half: the digit count is odd")
            elif high == 15:
                wrong(f"octet {octet:02X} at {place} has 15 in its high half, which must be a digit")
            else:
                text += CHARACTERS[high]
        return text

    def body(self, at):
        s = self.s
        if at >= len(s):
            raise Fault(45, at, "the header's length octet is missing")
        end = at + 1 + s[at]
        if end > len(s):
            raise Fault(45, at, f"header length {s[at]} reaches beyond the string, which has {len(s) - at - 1} more")
        self.step(at, f"header length {s[at]}")
        ports, piece = None, "-"
        place = at + 1
        while place < end:
            if place + 1 == end:
                raise Fault(45, place, "the element has no length octet: one octet is left in the header")
            kind, length = s[place], s[place + 1]
            left = end - place - 2
            if length > left:
                raise Fault(45, place, f"element length {length} reaches beyond the header, which has {left} more")
            octets = s[place + 2 : place + 2 + length]
            meaning = "skipped"
            if kind == 0x05:
                if length != 4:
                    raise Fault(45, place, f"element 05 has length 4, not {length}")
                ports = int.from_bytes(octets[:2], "big"), int.from_bytes(octets[2:], "big")
                meaning = "to port {}, from port {}".format(*ports)
            elif kind == 0x00:
                piece = self.piece(place, octets)
                meaning = "reference {}, count {}, sequence {}".format(*octets)
            self.step(place, f"element {kind:02X}, length {length}: {meaning}")
            place += 2 + length
        if ports is None:
            raise Fault(45, at, "the header has no element 05: ports are required")
        user = s[end:]
        self.step(end, f"user octets: {len(user)}")
        return f"to={ports[0]} from={ports[1]} piece={piece} user={end}:{user.hex().upper()}"

    def piece(self, place, octets):
        if len(octets) != 3:
            raise Fault(45, place, f"element 00 has length 3, not {len(octets)}")
        reference, count, sequence = octets
        if count == 0:
            raise Fault(45, place, "element 00 has count 0: counts begin at 1")
        if sequence == 0:
            raise Fault(45, place, "element 00 has sequence 0: sequences begin at 1")
        if sequence > count:
            raise Fault(45, place, f"element 00 has sequence {sequence}, above its count {count}")
        return f"{reference}/{count}/{sequence}"


def dump(octets, place):
    """The octets, sixteen a row, with the mark under the row of its place."""
    if not octets:
        return ["-", "^^"]
    marked = place // 16
    if place == len(octets) and place % 16 == 0:
        marked -= 1
    lines = []
    for row in range(0, len(octets), 16):
        lines.append(" ".join(f"{b:02X}" for b in octets[row : row + 16]))
        if row // 16 == marked:
            lines.append(" " * (3 * (place - row)) + "^^")
    return lines


def explained(octets):
    """The result line, the lines under it, and whether the string is sound."""
    reading = Reading(octets)
    try:
        return reading.read(), reading.steps, True
    except Fault as fault:
        why = f"at {fault.place}: {fault.why}"
        return fault.words(), reading.steps + dump(octets, fault.place) + [why], False


def meant(line):
    """A line without its end: None where it is passed over, its octets, or the reason that it is refused."""
    if line.startswith(b"#") or not line.strip(b" "):
        return None
    if line.strip(b" ") == b"-":
        return b""
    # whole octets with spaces around them, and perhaps one digit more
    if not re.fullmatch(rb" *(?:[0-9A-Fa-f]{2} *)*[0-9A-Fa-f]? *", line):
        return "not hex"
    digits = line.replace(b" ", b"").decode()
    if len(digits) % 2:
        return "odd count of hex digits"
    if len(digits) > 2 * 160:
        return "above 160 octets"
    return bytes.fromhex(digits)


def lines_of(data):
    """Each line without its LF, or CR and LF; a CR at the very end goes too."""
    lines = data.split(b"\n")
    if lines[-1] == b"":
        lines.pop()
    return [line[:-1] if line.endswith(b"\r") else line for line in lines]


def output(data):
    sound = broken = 0
    for number, line in enumerate(lines_of(data), 1):
        what = meant(line)
        if what is None:
            continue
        if isinstance(what, str):
            yield f"refused input line {number}: {what}"
            continue
        result, below, fine = explained(what)
        sound, broken = sound + fine, broken + (not fine)
        yield result
        for text in below:
            yield "  " + text
    yield f"  strings read {sound + broken}, sound {sound}, broken {broken}"


def comments(data):
    """The strings whose result is not what the comment above them says, and how many agree."""
    bad, good, essence = [], 0, None
    for number, line in enumerate(lines_of(data), 1):
        what = meant(line)
        if what is None:
            if line.startswith(b"#"):
                essence = line.decode("latin-1").partition(": ")[2].split()
            continue
        if isinstance(what, str):
            result, expected = ["refused"] + what.split(), essence
        else:
            result = explained(what)[0].split()
            expected = essence
            if essence and len(essence) == 3 and essence[1] == "at":
                expected = ["fault", "cause=" + essence[0], "place=" + essence[2]]
        if expected and expected[0] == result[0] and set(expected) <= set(result):
            good += 1
        else:
            bad.append((number, essence, " ".join(result)))
        essence = None
    return bad, good


def main():
    if len(sys.argv) == 3 and sys.argv[1] == "--comments":
        bad, good = comments(open(sys.argv[2], "rb").read())
        for number, essence, result in bad:
            print(f"line {number}: the comment says {essence}, the rules say {result}")
        print(f"{good} comments agree, {len(bad)} do not")
        sys.exit(1 if bad else 0)
    for line in output(open(sys.argv[1], "rb").read()):
        print(line)


if __name__ == "__main__":
    main()

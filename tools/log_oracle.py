#!/usr/bin/env python3
"""What `kurbelna log` must write, worked out a second time.

    log_oracle.py FILE [direct|gateway] [highest=N] [latest=N]

No port of the program: a bearer here is a dictionary of its meaning, and a line is matched by a regular expression.
"""
import re
import sys

from strings_oracle import Fault, Reading, meant

LINE = re.compile(
    rb'<siggw><msg type="(begin|continue)"><dialog id="(0|[1-9][0-9]*)"/>'
    rb'<component type="(invoke|result)"><param name="ussd_string" v="((?:[0-9A-F]{2})*)"/></component></msg></siggw>')
OTHER = {"mobile": "network", "network": "mobile"}


def direct_string(form, raw, opening, side, number):
    """The USSD string on a raw line, or None where the line has not its form."""
    if form == "direct":
        return raw
    m = LINE.fullmatch(raw)
    if not m:
        return None
    kind = b"begin" if opening else b"continue"
    component = b"result" if not opening and side == "mobile" else b"invoke"
    if m[1] != kind or m[2] != str(number).encode() or m[3] != component:
        return None
    string = bytes.fromhex(m[4].decode())
    return string if len(string) <= 160 else None


class Bearer:
    def __init__(self, form, highest, latest):
        self.form, self.highest, self.number = form, highest, latest
        self.room = 160 if form == "direct" else 640
        self.open, self.code, self.turn = False, "", None

    def bring(self, side, raw):
        if len(raw) > self.room:
            return "refused 29"
        if self.open and self.turn != side:
            return "refused 27"
        if not self.open and self.number == 4294967295:
            return "refused 25"
        opening = not self.open
        if opening:
            self.open, self.number, self.code = True, self.number + 1, ""
        self.turn = OTHER[side]
        string = direct_string(self.form, raw, opening, side, self.number)
        code = ""
        if string is not None and opening and side == "mobile":
            m = re.fullmatch(rb"\*#([0-9]{2,4})\*(.*)#", string, re.S)
            string, code = (m[2], m[1].decode()) if m else (None, "")
        if string is None or len(string) > 152 or any(x > self.highest for x in string):
            return "fault cause=40 place=0 layer=bearer"
        if opening:
            self.code = code
        try:
            return Reading(string).read()
        except Fault as fault:
            return fault.words()

    def end(self, word):
        if not self.open:
            return "refused 26"
        self.open, self.code, self.turn = False, "", None
        return word


def answer(bearer, number, line):
    side, _, text = line.partition(b" ")
    if line == b"lose":
        words = bearer.end("lost")
    elif side in (b"mobile", b"network") and b" " in line:
        side = side.decode()
        if text == b"close":
            words = bearer.end("closed")
        elif bearer.form == "direct":
            raw = meant(text)
            if isinstance(raw, bytes):
                words = bearer.bring(side, raw)
            elif raw == "above 160 octets":
                words = "refused 29"
            else:
                return f"refused input line {number}: {raw or 'not hex'}"
        else:
            words = bearer.bring(side, text)
    else:
        return f"refused input line {number}: no such entry"
    return f"dialogue={bearer.number} code={bearer.code or '-'} {words}"


def main():
    form, highest, latest = "gateway", 255, 0
    for word in sys.argv[2:]:
        if word in ("direct", "gateway"):
            form = word
        elif word.startswith("highest="):
            highest = int(word[8:])
        else:
            latest = int(word[7:])
    bearer = Bearer(form, highest, latest)
    lines = open(sys.argv[1], "rb").read().split(b"\n")
    if lines[-1] == b"":
        lines.pop()
    for number, line in enumerate(lines, 1):
        print(answer(bearer, number, line[:-1] if line.endswith(b"\r") else line))


main()

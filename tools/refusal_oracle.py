#!/usr/bin/env python3
"""What `refusal_table` must write: every call of a bearer in every kind of state, worked out from the questions.

A state is (open, number, standing, string), the standing being whose turn it is or to whom a string is under way.
"""
STATES = [
    ("closed", False, 7, None, None), ("closed at the last number", False, 2**32 - 1, None, None),
    ("under way to network", True, 8, "to network", 1), ("turn with network", True, 8, "network", None),
    ("under way to mobile", True, 8, "to mobile", 2), ("turn with mobile", True, 8, "mobile", None),
    ("garbled to network", True, 8, "to network", "garbled"), ("lost", False, 8, None, None)]
OPENS = [("mobile open 12", "mobile", "12", 1, 6), ("mobile open 1", "mobile", "1", 1, 6),
         ("mobile open 12345", "mobile", "12345", 1, 6), ("network open", "network", "", 1, 6),
         ("network open 12", "network", "12", 1, 6), ("mobile open 12 with 153 octets", "mobile", "12", 153, 0),
         ("mobile open 12 with 80", "mobile", "12", 1, 0x80)]
GIVES = [("mobile give", "mobile", 1, 6), ("network give", "network", 1, 6),
         ("mobile give 153 octets", "mobile", 153, 0), ("network give 80", "network", 1, 0x80)]


def first(questions):
    return next((number for yes, number in questions if not yes), None)


def rows(form):
    for state, is_open, number, standing, string in STATES:
        def row(call, no, accepted="accepted 0, altered"):
            return f"{state}, {call}: " + (f"refused {no}, kept" if no else accepted)
        for call, side, code, count, octet in OPENS:
            lawful = 2 <= len(code) <= 4 if side == "mobile" else code == ""
            yield row(call, first([(not is_open, 21), (lawful, 22), (count <= 152, 23), (octet <= 127, 24), (number < 2**32 - 1, 25)]))
        for call, side, count, octet in GIVES:
            yield row(call, first([(is_open, 26), (standing == side, 27), (count <= 152, 23), (octet <= 127, 24)]))
        for side in ("mobile", "network"):
            taken = "fault 40, altered" if string == "garbled" else f"accepted {string}, altered"
            yield row(f"{side} take", first([(is_open, 26), (standing == f"to {side}", 28)]), taken)
        for call in ("mobile close", "network close", "lose"):
            yield row(call, first([(is_open, 26)]))
        for side in ("mobile", "network"):
            last = (standing == side, 27) if is_open else (number < 2**32 - 1, 25)
            yield row(f"{side} load", first([last]))
        yield row("mobile load 641 octets", 29)


for form in ("direct", "gateway"):
    print(form)
    for line in rows(form):
        print(line)

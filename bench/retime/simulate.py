"""What `sdhretime` must write, simulated plainly: a list of bytes, and a list of what each turn did. It shares nothing with the
crates; `compare` holds the built program against it."""

READ_MAX = 1_048_576
USAGE = b"usage: sdhretime DIGITS\n"


def is_digits(word):
    return 1 <= len(word) <= 64 and all(letter in "0123456" for letter in word)


def action_of(earlier, fill):
    """What a turn does, by the names of what the turns before it did, and the number of bytes held before it."""
    turn = len(earlier) + 1
    if turn == 1:
        return "ais"
    if turn == 2:
        return "new"
    breaks = [2] + [k + 1 for k, name in enumerate(earlier) if name in ("up", "down")]
    if all(turn - k >= 4 for k in breaks):
        if fill >= 2352:
            return "down"
        if fill <= 2346:
            return "up"
    return "plain"


GIVEN = {"ais": 0, "new": 2349, "plain": 2349, "up": 2346, "down": 2352}


def retime(words, data):
    """The status and the text."""
    if len(words) != 1 or not is_digits(words[0]):
        return 2, USAGE
    if len(data) > READ_MAX:
        return 9, b"too long\n"
    sizes = [2346 + int(letter) for letter in words[0]]
    lines, earlier, held, at = [], [], b"", 0
    while True:
        turn = len(earlier) + 1
        size = sizes[(turn - 1) % len(sizes)]
        if at + size > len(data):
            lines.append(b"left %d" % (len(data) - at))
            return 0, b"\n".join(lines) + b"\n"
        name = action_of(earlier, len(held))
        after = held + data[at:at + size]
        given, after = after[:GIVEN[name]], after[GIVEN[name]:]
        fill = len(held) + size - GIVEN[name]
        if not 2340 <= fill <= 2358:
            lines.append(b"drift %d" % turn)
            return 12, b"\n".join(lines) + b"\n"
        at += size
        held = after
        earlier.append(name)
        lines.append(b"%d %s %d" % (turn, name.encode(), fill))
        if name != "ais":
            lines.append(given.hex().encode())

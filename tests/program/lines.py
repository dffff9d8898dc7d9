"""Lines of scripts, for the tests of the program."""


def text_of(lines):
    return b"".join(line + b"\n" for line in lines)


def is_answered(line):
    """Returns whether the program prints a reply to a line."""
    return bool(line.strip(b" \t\r")) and not line.lstrip(b" \t").startswith(b"%")

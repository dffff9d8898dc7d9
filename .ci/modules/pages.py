"""The blocks, the links and the anchors of a page, for .ci/prose."""
import functools
import re

CODE, ITEM, FENCE = (
    r"(`+)(?!`)(.*?)(?<!`)\1(?!`)",
    re.compile(r" *([-*+]|\d+[.)]) +"),
    re.compile(r" *(?:(?:[-*+]|\d+[.)]) +)?(`{3,}|~{3,})(.*)"),
)
LINK = re.compile(
    r"\]\(<?([^)>\s]+)|^\[[^\]]+\]: *(\S+)"
    r"|<(?:img|source|a)\b[^>]*?(?:src|srcset|href)=\"([^\"]+)\"",
    re.M,
)


def plain(text):
    """Returns a text as it is read: a code span is one word, a link its text, a picture
    nothing."""
    text = re.sub(
        r"<[^>]*>", " ", re.sub(r"<https?:[^>]*>", "Link", re.sub(CODE, "Code", text, flags=re.S))
    )
    return re.sub(
        r"\[([^\]]*)\](\([^)]*\)|\[[^\]]*\])", r"\1", re.sub(r"!\[[^\]]*\]\([^)]*\)", " ", text)
    )


def cells(row):
    """Returns the cells of a row of a table, none of the row under its head."""
    row = re.sub(CODE, lambda span: span[0].replace("|", "\\|"), row)
    return re.split(r"(?<!\\)\||<br>", row if re.search(r"[^-:| ]", row) else "")


def blocks(text):
    """Yields the blocks of a page outside code, each (kind, line, text) where kind is text, head,
    cell or fault."""
    fence, inside, above, indents = None, [], "", [0]
    lines = re.sub(
        r"<!--.*?-->", lambda comment: "\n" * comment[0].count("\n"), text, flags=re.S
    ).splitlines()
    for number, line in enumerate([*lines, ""], 1):
        body = re.sub(r"^ *(> ?)+", "", line)
        mark, item, indent = FENCE.match(body), ITEM.match(body), len(body) - len(body.lstrip(" "))
        if inside and (
            fence or mark or item or not body.strip() or re.match(r" *(#{1,6} |\|)", body)
        ):
            yield "text", number - len(inside), "\n".join(inside)
            inside = []
        if fence:
            ends = mark and mark[1].startswith(fence[0]) and not mark[2].strip()
            fence = None if ends else fence
        elif mark:
            fence = mark[1], number
            if not mark[2].strip():
                yield "fault", number, "a code block without a language"
        elif re.match(r" *#{1,6} ", body):
            yield "head", number, body.strip()
        elif body.lstrip().startswith("|"):
            yield from (("cell", number, cell) for cell in cells(body))
        elif body.strip():
            indents = [width for width in indents if width <= indent]
            if indent >= indents[-1] + 4 and not above.strip():
                yield from [("fault", number, "an indented code block")] if above != "\t" else []
                body = "\t"
            indents += [len(item[0])] if item else []
            inside += [body[len(item[0]) :] if item else body.strip()] if body.strip() else []
        above = body
    yield from [("fault", fence[1], "an unclosed code block")] if fence else []


@functools.cache
def anchors(text):
    """Returns the anchors of a page with this text, by GitHub's rules."""
    seen, found = {}, set(re.findall(r"<a (?:id|name)=\"(.*?)\"", text))
    for head in (head for kind, _, head in blocks(text) if kind == "head"):
        name = re.sub(
            r"[^\w\- ]",
            "",
            re.sub(r"\[([^\]]*)\]\([^)]*\)", r"\1", head.lstrip("#")).strip().lower(),
        ).replace(" ", "-")
        seen[name] = seen.get(name, -1) + 1
        found.add(f"{name}-{seen[name]}" if seen[name] else name)
    return found


def broken(page, text):
    """Yields the links of a text that lead nowhere."""
    for link in map("".join, LINK.findall(re.sub(CODE, "", text, flags=re.S))):
        path, _, anchor = link.partition("#")
        file = page.parent / path if path else page
        is_there = bool(re.match(r"[a-z]+:", path)) or not path.startswith("/") and file.exists()
        if (
            not is_there
            or anchor
            and file.suffix == ".md"
            and file.is_file()
            and anchor not in anchors(file.read_text())
        ):
            yield link

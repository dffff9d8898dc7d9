"""The reading copy of the store's specification, for .ci/definitions: one page of all files that
the list of definitions has for it, in its order and without imports."""
import re
import textwrap

HEAD = """# The specification of the store on one page

`.ci/definitions --write` makes this page from the {files} files of the store's specification.
The order is that of [the specification read aloud](specification.md#the-store-file-by-file),
which says what each file is for. Imports are left out. If a file has another name for something,
a line above its definitions says so.

[Reading a contract](../internals/glossary.md#reading-a-contract) explains the notation. The
structs and enumerations that the definitions name are types of the code: `Term`, `Step`, `Reply`
and others. Lists and maps are those of the kit's standard library.

"""
IMPORT = re.compile(r"^\s*(?:pub )?(?:use|mod) ")
ALIAS = re.compile(r"^\s*(?:pub )?use Rattle\.([\w.]+?)(?:\.\{(.*)\})?(?: as ([\w-]+))?$")
NAMED = re.compile(r"([\w-]+) as ([\w-]+)")


def described(path, titles):
    """Returns the words for what an import names: a file of definitions, an enumeration of the
    code or a module of the standard library."""
    crate, *parts = path.replace(".specs.", ".").split(".")
    if parts[-1] == "TheVariants":
        return f"the enumeration `{parts[-2]}` of `{crate}`"
    title = f"{crate}: {'/'.join(parts)}"
    anchor = re.sub(r"[^\w\- ]", "", title.lower()).replace(" ", "-")
    if title in titles:
        return f"[{title}](#{anchor})"
    return f"`{'/'.join(parts)}` of {'the standard library' if crate == 'std' else f'`{crate}`'}"


def aliases(lines, titles):
    """Yields a sentence for each other name that the imports of a file make."""
    for line in lines:
        found = ALIAS.match(line)
        if not found:
            continue
        path, names, alias = found.groups()
        if alias:
            yield f"`{alias}` is {described(path, titles)}."
        for name, known_as in NAMED.findall(names or ""):
            yield f"`{known_as}` is `{name}` of {described(path, titles)}."


def wrapped(text):
    """Returns a paragraph in the width of a page, with links and code spans whole."""
    whole = re.sub(r"`[^`]*`|\[[^\]]*\]", lambda span: span[0].replace(" ", "\0"), text)
    lines = textwrap.wrap(whole, 120, break_on_hyphens=False, break_long_words=False)
    return "\n".join(lines).replace("\0", " ")


def definitions(text):
    """Returns a file without its imports, and with one blank line where it has more."""
    lines = [line for line in text.splitlines() if not IMPORT.match(line)]
    return re.sub(r"\n{3,}", "\n\n", "\n".join(lines)).strip()


def part(file, name, sentence, titles):
    """Returns the part of the page that a file is: its name, what it says, and its definitions."""
    text = file.read_text()
    path = re.search(r"crates/.*", str(file))[0]
    names = " ".join(aliases(text.splitlines(), titles))
    paragraphs = [f"{sentence.strip()}.", names] if names else [f"{sentence.strip()}."]
    head = [f"### [{name}](../../{path})", *map(wrapped, paragraphs)]
    return "\n\n".join([*head, f"```antt\n{definitions(text)}\n```\n"])


def page(sections):
    """Returns the page. `sections` has the rows of each section by its name: a file, its name and
    what it says."""
    titles = {name for rows in sections.values() for _, name, _ in rows}
    made = [HEAD.format(files=len(titles))]
    for section, rows in sections.items():
        made.append(f"## {section}\n\n")
        made += [part(*row, titles) + "\n" for row in rows]
    return "".join(made).rstrip() + "\n"

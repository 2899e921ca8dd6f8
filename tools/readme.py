"""Checks that each piece of code in README.md is a part of the file that it is said to be from.

Every fenced block stands below a link to its file, `[path](path)`; the last link before the block counts. The block's lines must follow one another in
that file, moved in by the same number of blanks each. Prints what differs and ends with 1.
"""
import pathlib
import re
import sys
import textwrap

root = pathlib.Path(__file__).resolve().parent.parent


def blocks(text):
    """Each fenced block with the path of the last link before it."""
    link, block = None, None
    for line in text.splitlines():
        if line.startswith("```"):
            if block is None:
                block = []
            else:
                yield link, block
                link, block = None, None
        elif block is not None:
            block.append(line)
        else:
            links = re.findall(r"\]\(([^)#]+)\)", line)
            link = links[-1] if links else link


def stands_in(block, source):
    """Whether the block's lines stand one after the other in the source, whatever the blanks before all of them."""
    lines = source.splitlines()
    wanted = textwrap.dedent("\n".join(block))
    return any(textwrap.dedent("\n".join(lines[at : at + len(block)])) == wanted for at in range(len(lines) - len(block) + 1))


def main():
    failures, checked = [], 0
    for link, block in blocks((root / "README.md").read_text()):
        checked += 1
        if link is None:
            failures.append(f"no file is named for the block that starts with {block[0]!r}")
        elif not (root / link).is_file():
            failures.append(f"{link} is no file")
        elif not stands_in(block, (root / link).read_text()):
            failures.append(f"the block that starts with {block[0]!r} is no part of {link}")
    for failure in failures:
        print(f"README.md: {failure}")
    if failures or not checked:
        sys.exit(1)
    print(f"README.md: {checked} pieces of code are as in their files")


main()

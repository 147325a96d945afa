"""The documents, held to what they say.

In an indented block a line `$ COMMAND` is run, and what follows it up to the next command must be just what it says on either
output. In a table of what is proved, `| what | theorem | file |`, each theorem must stand in a file of its row. A link to a
file must lead to one.

Usage: tests/documents.py DOCUMENT.. from the root. The commands of a document run in turn, in a folder of their own that has
the examples, the header, the library and the program.
"""

import os
import re
import subprocess
import sys
import tempfile

INDENT = "    "
PROMPT = INDENT + "$ "


def commands(text):
    """The commands of a document, each with the lines that it should say."""
    found = []
    in_block = False
    for line in text.split("\n"):
        if line.startswith(PROMPT):
            found.append((line[len(PROMPT):], []))
            in_block = True
        elif in_block and (line.startswith(INDENT) or line == ""):
            found[-1][1].append(line[len(INDENT):])
        else:
            in_block = False
    return [(command, "\n".join(said).strip("\n")) for command, said in found]


def said(command, folder):
    run = subprocess.run(["bash", "-c", command], cwd=folder, stdout=subprocess.PIPE, stderr=subprocess.STDOUT)
    return run.stdout.decode("utf-8").strip("\n")


def broken_commands(text):
    with tempfile.TemporaryDirectory() as folder:
        for name in ("tolmupung", "examples", "include", "target"):
            os.symlink(os.path.abspath(name), os.path.join(folder, name))
        for command, wanted in commands(text):
            found = said(command, folder)
            if found != wanted:
                yield f"{command}\nsays\n{found}\nand not\n{wanted}"


def quoted(cell):
    return re.findall(r"`([^`]*)`", cell)


def files_of(cell, before):
    """The files that a cell names: below crates/, beside the one named before, or the same as in the row before."""
    files = list(before) if "the same" in cell else []
    for name in quoted(cell):
        if name.endswith(".antt") and "/" not in name and (files or before):
            files.append(os.path.join(os.path.dirname((files or before)[-1]), name))
        elif name.endswith(".antt"):
            files.append(os.path.join("crates", name.removeprefix("crates/")))
    return files


def theorems(text):
    """The theorems that a document's tables of what is proved name, each with the files of its row."""
    for table in re.findall(r"^\| what \| theorem \| file[^|]*\|\n((?:\|.*\|\n)*)", text, re.MULTILINE):
        files = []
        for row in table.splitlines():
            _, _, names, cell, _ = row.split("|")
            files = files_of(cell, files)
            for name in quoted(names):
                if re.fullmatch(r"[a-z_]+|\w+(-\w+)+", name):
                    yield name, files


def stands(name, file):
    return re.search(rf"^ *(pub )?{re.escape(name)} :", open(file, encoding="utf-8").read(), re.MULTILINE)


def broken_theorems(text):
    for name, files in theorems(text):
        lacking = [file for file in files if not os.path.exists(file)]
        if lacking or not any(stands(name, file) for file in files):
            yield f"{name} does not stand in {' or '.join(lacking or files)}"


def links(text):
    return [link for link in re.findall(r"\]\(([^)#]*)[^)]*\)", text) if link and ":" not in link]


def broken_links(text, document):
    for link in links(text):
        if not os.path.exists(os.path.join(os.path.dirname(document), link)):
            yield f"there is no {link}"


def main():
    for document in sys.argv[1:]:
        text = open(document, encoding="utf-8").read()
        for broken in (broken_links(text, document), broken_theorems(text), broken_commands(text)):
            for what in broken:
                sys.exit(f"{document}: {what}")
        counts = len(commands(text)), len(list(theorems(text))), len(links(text))
        print(f"{document}: %d commands, %d theorems and %d links, as it says" % counts)


main()

#!/usr/bin/env python3
"""Refuses each request for memory of the program check_main in turn, and looks at what it answers.

`python3 tests/refused_memory.py [RUN ..]` tries all commands, or the runs named, on files of examples/ and on a short script, with the
check_main that TEKHVUMO_PROGRAM names or that is found; then the put of a text for which room was made, by the tests of
`document_examples` that the gate built, if they are there. It wants a C compiler (`cc`), for the few lines that stand before the system's
`malloc` and `realloc`.

A run in which the Nth request was refused has to end in one of these ways. It tells of the want of memory by the status 6 alone, and has
written nothing. Or it does without, and ends and writes as if nothing had been refused. Or, of `live` and `groups` alone, the replies of
some commands say `nomemory`, and what stands in the journal, carried out anew as a script of one session, ends in the same verdict; and
what `save` writes is a saved text, of fewer entries. Or, of `serve`, it ends with the status 6 behind a front of its replies; or one
reply is `nomemory`, and all others are those to a conversation without that command.
"""
from __future__ import annotations

import os
import re
import subprocess
import sys
import tempfile
from pathlib import Path

from conversation_lines import lines_of, orders_by_line
from conversation_samples import SAMPLES
from conversations import replies_in, without_frame
from program import EXAMPLES, TOP, Status, find_program
from samples import TWO_PUTS
from saved_texts import SAVED, Bad, document_of

BOOK_TESTS = TOP / "crates" / "document_examples" / "out" / "document_examples_tests"

# Stands before the system's malloc and realloc. The request with this number, from 1, is refused, and a byte on descriptor 9 says that there was one.
REFUSER = r"""
#define _GNU_SOURCE
#include <dlfcn.h>
#include <stdatomic.h>
#include <stddef.h>
#include <stdlib.h>
#include <unistd.h>

static atomic_long made;

static int is_refused(void) {
    const char *text = getenv("REFUSED_REQUEST");
    long refused = text ? atol(text) : 0;
    if (atomic_fetch_add(&made, 1) + 1 != refused)
        return 0;
    if (write(9, "x", 1)) {}
    return 1;
}

void *malloc(size_t size) {
    static void *(*given)(size_t);
    if (!given)
        given = dlsym(RTLD_NEXT, "malloc");
    return is_refused() ? NULL : given(size);
}

void *realloc(void *block, size_t size) {
    static void *(*given)(void *, size_t);
    if (!given)
        given = dlsym(RTLD_NEXT, "realloc");
    return is_refused() ? NULL : given(block, size);
}
"""


def example(name: str) -> bytes:
    """The bytes of a file of examples/."""
    return EXAMPLES.joinpath(name).read_bytes()


# The words of each run, and its standard input.
RUNS = {
    "check": (["check", "--loops"], example("tube.k")),
    "blocks": (["check", "--block", "4", "--json", "--loops"], example("tube.k")),
    "text": (["text"], example("rib.k")),
    "passes": (["passes"], example("tube.k")),
    "make": (["make", "2", "0"], b""),
    "puts": (["live"], TWO_PUTS),
    "live": (["live"], example("mended-transfer.live")),
    "header": (["live"], example("another-yarn.live")),
    "groups": (["groups", "--block", "4"], example("another-carrier.groups")),
    "save": (["save", "--block", "4"], TWO_PUTS),
    "replay": (["replay"], SAVED),
    "tally": (["tally", "0", "1"], SAVED),
    "serve": (["serve", "--block", "4"], example("two-editors.serve")),
    "json": (["serve", "--block", "4", "--json"], example("two-editors.serve")),
    "resumed": (["serve"], SAMPLES["a_saved_text"].given.encode()),
}


def build_refuser(folder: str) -> str:
    """The library that refuses a request, built in this folder."""
    source, library = f"{folder}/refuser.c", f"{folder}/refuser.so"
    Path(source).write_text(REFUSER)
    subprocess.run(["cc", "-O1", "-shared", "-fPIC", "-o", library, source, "-ldl"], check=True)
    return library


def run(words: list[str], given: bytes, library: str, request: int) -> tuple[int, bytes, bool]:
    """The status and the output of a run in which this request is refused, and whether there was such a request."""
    behind, front = os.pipe()
    os.dup2(front, 9)
    os.set_inheritable(9, True)
    ways = {**os.environ, "LD_PRELOAD": library, "REFUSED_REQUEST": str(request)}
    ran = subprocess.run(words, input=given, capture_output=True, env=ways, pass_fds=[9])
    os.close(front)
    os.close(9)
    was_refused = os.read(behind, 1) != b""
    os.close(behind)
    return ran.returncode, ran.stdout, was_refused


def commands_of(script: str) -> tuple[list[str], list[tuple[str, list[str]]]]:
    """The lines of a script of one session up to its first command, and its commands, each with its lines of text; a group is one, up to its end."""
    lines = [line for line in script.splitlines() if line.strip() and not line.startswith("#")]
    begin = lines.index("session") + 1
    commands: list[tuple[str, list[str]]] = []
    in_group = False
    for line in lines[begin:]:
        if line.startswith("|") or in_group:
            commands[-1][1].append(line)
        else:
            commands.append((line, []))
        in_group = (in_group or line == "group") and line != "end"
    return lines[:begin], commands


def replies_of(report: str) -> dict[int, str]:
    """The first line of the reply to each command of the one session, by its number."""
    return {int(m[1]): m[2] for m in re.finditer(r"^(\d+) (.*)$", report.split("journal ")[0], re.M)}


def accepted_alone(script: str, report: str) -> str:
    """The script of the commands that the report says were accepted, each block named by its id."""
    front, commands = commands_of(script)
    replies = replies_of(report)
    ids: dict[str, str] = {}
    kept = list(front)
    adds = 0
    for number, (command, text) in enumerate(commands, 1):
        word = command.split()[0]
        adds += word == "add"
        accepted = re.match(r"(?:accepted version \d+ block|group version) (\w+)", replies[number])
        if not accepted:
            continue
        if word == "add":
            ids[f"@{adds}"] = accepted[1]
        kept += [" ".join(ids.get(token, token) for token in command.split()), *text]
    return "\n".join(kept) + "\n"


def end_of(report: str) -> str:
    """The version at the end, with the verdict on the document."""
    return report[report.index("final version") :]


def has_fewer_entries(written: bytes, whole: bytes) -> bool:
    """Whether what was written is a saved text with fewer entries."""
    try:
        return document_of(written).version < document_of(whole).version
    except Bad:
        return False


def fault_of(script: str | None, whole: bytes, status: int, written: bytes, again) -> str | None:
    """What is wrong with a run in which a request was refused, if anything is. `script` is that of `live` or `groups`, and `again` is what the program writes of one."""
    if status == Status.NO_MEMORY:
        return "it wrote something" if written else None
    if status != 0:
        return f"its status is {status}"
    if written == whole:
        return None
    if whole.startswith(SAVED[:10]):
        return None if has_fewer_entries(written, whole) else "it wrote no such saved text"
    report = written.decode()
    if script is None or "nomemory" not in replies_of(report).values():
        return "it wrote something else"
    if end_of(again(accepted_alone(script, report))) != end_of(report):
        return "its journal, carried out anew, ends otherwise"
    return None


def told_behind_frames(said: bytes) -> list[bytes]:
    """The replies of a conversation without their sessions and numbers, also of JSON, and without those that say `nomemory`."""
    if said.startswith(b"{"):
        replies = [re.sub(rb'"(?:number|session)":\d+,?', b"", line).replace(b",}", b"}") for line in said.splitlines()]
        return [reply for reply in replies if reply != b'{"reply":"nomemory"}']
    replies = [without_frame(reply) if reply.startswith(b"session ") else reply for reply in replies_in(said)]
    return [reply for reply in replies if reply != b"nomemory"]


def without_nomemory(given: bytes, said: bytes) -> bytes:
    """The conversation without the commands that were answered so. Each line in it asks for one thing at most."""
    begin, orders = orders_by_line(given)
    lines = lines_of(given)
    replies = iter((said.splitlines() if said.startswith(b"{") else replies_in(said))[1:])
    kept, command = lines[:begin], []
    for line, asked in zip(lines[begin:], orders):
        command.append(line)
        if asked:
            kept += [] if b"nomemory" in next(replies) else command
            command = []
    return b"".join(line + b"\n" for line in kept)


def fault_of_conversation(given: bytes, whole: bytes, status: int, written: bytes, again) -> str | None:
    """What is wrong with a conversation in which a request was refused, if anything is. `again` is what the program says in one."""
    if status == Status.NO_MEMORY:
        return None if whole.startswith(written) and written[-1:] in (b"", b"\n") else "it said something else"
    if status != 0:
        return f"its status is {status}"
    if written == whole:
        return None
    if b"nomemory" not in written:
        return "it said something else"
    due = told_behind_frames(again(without_nomemory(given, written).decode()).encode())
    return None if told_behind_frames(written) == due else "a command that was answered `nomemory` changed something"


def try_run(name: str, program: str, library: str) -> bool:
    """Refuses each request of this run in turn, says what came of it, and answers whether all was well."""
    words, given = RUNS[name]
    script = given.decode() if words[0] in ("live", "groups") else None
    whole = subprocess.run([program, *words], input=given, capture_output=True).stdout
    again = lambda script: subprocess.run([program, *words], input=script.encode(), capture_output=True).stdout.decode()
    request, well, silent, without = 0, True, 0, 0
    while True:
        request += 1
        status, written, was_refused = run([program, *words], given, library, request)
        if not was_refused:
            break
        fault = (
            fault_of_conversation(given, whole, status, written, again)
            if words[0] == "serve"
            else fault_of(script, whole, status, written, again)
        )
        silent += status == Status.NO_MEMORY
        without += written == whole
        if fault:
            well = False
            print(f"{name}: request {request} refused: {fault}")
    told = request - 1 - silent - without
    print(f"{name}: {request - 1} requests: {silent} end with the status {Status.NO_MEMORY}, {without} as if nothing were refused, {told} with `nomemory` replies")
    return well


def requests_of(test: str, library: str) -> int:
    """How many requests a test of books makes."""
    request = 1
    while run([str(BOOK_TESTS), f"tests::book::{test}"], b"", library, request)[2]:
        request += 1
    return request - 1


def try_ready_put(library: str) -> bool:
    """Whether a put of a text for which room was made asks for no memory: the test that puts it asks as often as the one that doesn't."""
    without, with_put = requests_of("a_block_is_made_ready", library), requests_of("a_warm_block_is_ready", library)
    print(f"a ready put: {without} requests up to it, {with_put} with it")
    return 0 < without == with_put


def main(names: list[str]) -> int:
    program = find_program()
    with tempfile.TemporaryDirectory(prefix="refused-") as folder:
        library = build_refuser(folder)
        well = [try_run(name, program, library) for name in names or RUNS]
        if BOOK_TESTS.is_file():
            well.append(try_ready_put(library))
        return 0 if all(well) else 1


if __name__ == "__main__":
    sys.exit(main(sys.argv[1:]))

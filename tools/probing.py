"""Runs a small program over the repository's crates, built without a proof in a folder of its own (`rt try`)."""
import concurrent.futures
import functools
import os
import re
import shutil
import subprocess
import sys

SECONDS = "600"


def listed_crates(root, crates):
    """The lines of crates.txt for some crates and all that they stand on, lowest first."""
    lines = [line for line in (root / "crates.txt").read_text().splitlines() if line and line[0] != "#"]
    uses = {line.split(":")[0]: line.split(":")[1].split() for line in lines}
    wanted, more = set(), set(crates.split())
    while more:
        wanted |= more
        more = {below for name in more for below in uses[name] if below in uses} - wanted
    return [line for line in lines if line.split(":")[0] in wanted]


def build(root, folder, name, uses, main):
    """A repository with the program NAME, whose text is `main`, over the crates that it uses. Returns the program's folder."""
    lines = listed_crates(root, uses)
    for crate in [line.split(":")[0] for line in lines]:
        shutil.copytree(root / "crates" / crate, folder / "crates" / crate,
                        ignore=shutil.ignore_patterns("out", "must-fail", "tests", "tests.rt"))
        library = folder / "crates" / crate / "src" / "lib.rt"
        library.write_text(library.read_text().replace("#[cfg(test)]\nmod tests;\n", ""))
    (folder / "crates.txt").write_text("\n".join(lines + [f"{name}: {uses}"]) + "\n")
    (folder / "HANDLES").write_text((root / "HANDLES").read_text())
    program = folder / "crates" / name
    (program / "src").mkdir(parents=True)
    (program / "src" / "main.rt").write_text(main)
    return program


def ask(program, lines, answer, most):
    """What the program says to each line: the lines of its output that match the pattern `answer`, one for each. It is built once
    for each processor of this computer, and run on at most so many lines at a time, since what it may print is limited."""
    share = -(-len(lines) // os.cpu_count())
    parts = [lines[at:at + share] for at in range(0, len(lines), share)]
    with concurrent.futures.ThreadPoolExecutor(os.cpu_count()) as pool:
        answers = list(pool.map(functools.partial(ask_part, program, answer, most), range(len(parts)), parts))
    return [line for part in answers for line in part]


def ask_part(program, answer, most, number, lines):
    cases = program.parent.parent / f"cases{number}"
    shutil.rmtree(cases, ignore_errors=True)
    cases.mkdir()
    for at in range(0, len(lines), most):
        (cases / f"{at // most:05}").write_text("".join(line + "\n" for line in lines[at:at + most]))
    words = ["rt", "try", "--steps", "1", "--seconds", SECONDS, "--cases", str(cases)]
    run = subprocess.run(words, cwd=program, capture_output=True, text=True)
    answers = [line for line in run.stdout.splitlines() if re.fullmatch(answer, line)]
    if len(answers) != len(lines):
        sys.exit(f"the program answered {len(answers)} of {len(lines)} lines:\n{(run.stdout + run.stderr)[-3000:]}")
    return answers

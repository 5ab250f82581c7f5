"""Tries the commands of README.md and of pages of docs/: each block that is fenced as ```console, in a fresh copy of the tracked files.

A block is one shell. Each of its lines that begins with `$ ` is a command, and the lines below it, up to the next command, are what it has
to write to standard output. Where there are none, the command has to write nothing, and to end with status 0. A second word behind
`console` names why a block isn't tried: `root`, or `slow` for one that takes more than two minutes. `lockd` is the built program, whose
`drive` waits here until its server listens, and `/tmp` is a folder of the block's own. `tries.py` says how it ends. Words such as
`try_README_12` try the block at that line alone.
"""
import os
import re
import shutil
import signal
import subprocess
import sys
import tempfile

from tests import tries

PAGES = "README.md", "docs/COMMANDS.md", "docs/TRACE.md"
SECONDS = 1800
# A second of sleep may be too short for a server on a busy machine.
CLIENT_WAITS = r"""lockd() {
    [ "$1" != drive ] || until grep -q " 00010000 .* $2\$" /proc/net/unix; do command sleep 0.1; done
    command lockd "$@"
}
"""
WHY_NOT = {"root": "wants root", "slow": "takes more than two minutes"}


def blocks(text):
    """The line, the words on the fence, and the lines of each fenced block."""
    lines, at = text.splitlines(), 0
    while at < len(lines):
        if lines[at].startswith("```"):
            end = lines.index("```", at + 1)
            yield at + 1, lines[at][3:].split(), lines[at + 1 : end]
            at = end
        at += 1


def commands(lines):
    """Each command of a block, and the output that is shown of it. One whose line ends with a backslash goes on in the next."""
    text = "".join(f"{line}\n" for line in lines)
    found = re.split(r"^\$ ((?:.*\\\n)*.*)\n", text, flags=re.M)
    assert not found[0], f"lines before the first command: {found[0]!r}"
    return [*zip(found[1::2], found[2::2])]


def fresh_copy(folder):
    """The tracked files as they stand, with the program where a build puts it."""
    tracked = subprocess.run(["git", "ls-files", "-z"], cwd=tries.TOP, capture_output=True, check=True).stdout.decode().split("\0")
    for path in filter(None, tracked):
        os.makedirs(os.path.dirname(f"{folder}/{path}"), exist_ok=True)
        shutil.copy2(f"{tries.TOP}/{path}", f"{folder}/{path}", follow_symlinks=False)
    os.makedirs(f"{folder}/crates/lockd/out")
    os.symlink(tries.PROGRAM, f"{folder}/crates/lockd/out/lockd")


def outputs(script, folder):
    """What the shell writes, cut at its zero bytes, and what it tells."""
    how = {"stdin": subprocess.DEVNULL, "stdout": subprocess.PIPE, "stderr": subprocess.PIPE, "start_new_session": True}
    path = f"{folder}/crates/lockd/out:{os.environ['PATH']}"
    with subprocess.Popen(["bash", "-c", script], cwd=folder, env={**os.environ, "PATH": path}, encoding="utf-8", **how) as shell:
        try:
            printed, told = shell.communicate(timeout=SECONDS)
        except subprocess.TimeoutExpired:
            raise AssertionError(f"not over after {SECONDS} seconds") from None
        finally:
            try:
                os.killpg(shell.pid, signal.SIGKILL)
            except ProcessLookupError:
                pass
    return printed.split("\0"), told


def tried(lines):
    shown = commands(lines)
    # Behind what a command writes stands its status, between zero bytes.
    script = CLIENT_WAITS + "".join(f"{command}\nprintf '\\0%d\\0' $?\n" for command, _ in shown)
    with tempfile.TemporaryDirectory(prefix="try-readme-") as folder, tempfile.TemporaryDirectory(prefix="try-readme-tmp-") as own:
        fresh_copy(folder)
        pieces, told = outputs(script.replace("/tmp/", f"{own}/"), folder)
    assert len(pieces) == 2 * len(shown) + 1, f"the shell ended in the midst: {told}"
    for (command, wanted), printed, status in zip(shown, pieces[0::2], pieces[1::2]):
        assert printed == wanted and (wanted or status == "0"), f"{command!r} wrote {printed!r} with status {status}, and told {told!r}"


def names():
    found = {}
    for page in PAGES:
        for line, words, lines in blocks(tries.text_of(page)):
            if any(it.startswith("$ ") for it in lines):
                assert words[:1] == ["console"] and all(it in WHY_NOT for it in words[1:]), f"{page}:{line}: fenced by {words}"
                why = [f"not tried, since it {WHY_NOT[it]}: {lines[0][2:]}" for it in words[1:]]
                name = f"try_{os.path.basename(page).removesuffix('.md')}_{line}"
                found[name] = (lambda why=why: why[0]) if why else lambda lines=lines: tried(lines)
    return found


if __name__ == "__main__":
    sys.exit(tries.main("commands/pages", names()))

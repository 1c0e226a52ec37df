"""Completes words of ssh_audit in bash and in zsh, for packaging.py: by calling bash's function, and by keys that are typed
into a shell of each kind."""
import os
import pathlib
import pty
import select
import shlex
import subprocess
import time

PROMPT = b"\x1d\x1e"
# At most so many bytes stand behind a prompt, which switch a mode of the terminal.
BEHIND = 16
SECONDS = 30


def in_bash(completion, words, settings, room):
    """What bash's function offers for the last of these words, as readline cuts them."""
    script = f"source {shlex.quote(str(completion))}\nCOMP_WORDS=({shlex.join(words)}) COMP_CWORD={len(words) - 1}\n_ssh_audit\nprintf '%s\\n' \"${{COMPREPLY[@]}}\""
    ran = subprocess.run(["bash", "-c", script], cwd=room, env=settings, stdin=subprocess.DEVNULL, stdout=subprocess.PIPE, stderr=subprocess.DEVNULL, check=False)
    return ran.stdout.decode().split()


class Shell:
    """A shell at a terminal, in which ssh_audit is a function that writes down its words."""

    def __init__(self, command, begin, settings, room):
        self.words = pathlib.Path(room) / "words"
        self.child, self.terminal = pty.fork()
        if self.child == 0:
            os.chdir(room)
            os.execvpe(command[0], command, {**settings, "PS1": PROMPT.decode(), "TERM": "dumb", "INPUTRC": "/dev/null"})
        self.shown()
        for line in (*begin, "ssh_audit() { printf '%s\\n' \"$@\" > written && mv written words; }"):
            self.type(line)

    def shown(self):
        """What the terminal shows up to the next prompt, or until SECONDS have passed."""
        text, ends = b"", time.monotonic() + SECONDS
        while PROMPT not in text[-BEHIND:] and time.monotonic() < ends:
            if select.select([self.terminal], [], [], 0.1)[0]:
                text += os.read(self.terminal, 65536)
        return text

    def type(self, keys):
        os.write(self.terminal, keys.encode() + b"\n")
        return self.shown()

    def typed(self, keys):
        """The words that ssh_audit gets when these keys are typed; where it gets none, what is shown."""
        self.words.unlink(missing_ok=True)
        text = self.type(keys)
        return self.words.read_text().split("\n")[:-1] if self.words.exists() else text

    def end(self):
        os.close(self.terminal)
        os.waitpid(self.child, 0)

"""An interactive shell in a terminal: what its command line is after some keys."""

from __future__ import annotations

import os
import pty
import re
import subprocess
import threading
import time
from pathlib import Path
from types import TracebackType

SECONDS = 30
PROMPT = "READY> "
# The key Ctrl-G puts the command line into the file $SHOWN, and empties it.
SHOW = b"\a"
TO_FILE = 'printf %s "$line" >"$SHOWN.new" && mv "$SHOWN.new" "$SHOWN"'

# How each shell is started in a folder of settings; and these settings.
STARTS = {
    "bash": ["bash", "--noprofile", "--rcfile", "{home}/bashrc", "-i"],
    "zsh": ["zsh", "-i"],
    "fish": ["fish", "--no-config", "-i", "--init-command", "source {home}/config.fish"],
}
SETTINGS = {
    "bash": ("bashrc", r"""
PS1='@PROMPT@'
source '@COMPLETIONS@/hdt.bash'
show() { local line=$READLINE_LINE; @TO_FILE@; READLINE_LINE= READLINE_POINT=0; }
bind -x '"\C-g": show'
"""),
    "zsh": (".zshrc", r"""
PS1='@PROMPT@' fpath=('@COMPLETIONS@' $fpath)
autoload -Uz compinit && compinit -D -u
show() { local line=$BUFFER; @TO_FILE@; BUFFER= }
zle -N show && bindkey '^G' show
"""),
    "fish": ("config.fish", r"""
function fish_prompt; echo -n '@PROMPT@'; end
source '@COMPLETIONS@/hdt.fish'
function show; set -l line (commandline); @TO_FILE@; commandline ''; end
bind \cg show
"""),
}


class NotShown(Exception):
    """A shell did not show its command line in time."""


class Terminal:
    """An interactive shell that has sourced the completions, in a folder. `home` is an empty folder for its settings.

    It is a context manager: at its end the shell is killed.
    """

    def __init__(self, shell: str, completions: Path, home: Path, folder: Path) -> None:
        values = {"PROMPT": PROMPT, "COMPLETIONS": str(completions), "TO_FILE": TO_FILE}
        name, text = SETTINGS[shell]
        (home / name).write_text(re.sub("@([A-Z_]+)@", lambda it: values[it[1]], text))
        self.shown = home / "shown"
        self.printed = b""
        env = {"PATH": os.environ["PATH"], "HOME": str(home), "ZDOTDIR": str(home), "TERM": "xterm",
               "LC_ALL": "C.UTF-8", "SHOWN": str(self.shown)}
        self.master, slave = pty.openpty()
        command = ["setsid", "--ctty", *(word.format(home=home) for word in STARTS[shell])]
        self.process = subprocess.Popen(command, stdin=slave, stdout=slave, stderr=slave, env=env, cwd=folder)
        os.close(slave)
        self.reader = threading.Thread(target=self._collect)
        self.reader.start()

    def __enter__(self) -> Terminal:
        return self

    def __exit__(self, kind: type[BaseException] | None, error: BaseException | None,
                 trace: TracebackType | None) -> None:
        self.process.kill()
        self.process.wait()
        self.reader.join()
        os.close(self.master)

    def _collect(self) -> None:
        """Collect what the shell prints, until it ends."""
        try:
            while data := os.read(self.master, 65536):
                self.printed += data
        except OSError:
            pass

    def line_after(self, keys: str) -> str:
        """The command line after these keys, typed into an empty one. Raises NotShown."""
        self.shown.unlink(missing_ok=True)
        end = time.monotonic() + SECONDS
        is_typed = False
        while time.monotonic() < end and self.process.poll() is None:
            if not is_typed and PROMPT.encode() in self.printed:
                os.write(self.master, keys.encode() + SHOW)
                is_typed = True
            if self.shown.exists():
                return self.shown.read_text()
            time.sleep(0.01)
        raise NotShown(self.printed.decode(errors="replace"))

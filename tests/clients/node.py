"""Node over the clients' modules in JavaScript."""

import subprocess


def node(*words: object, text: str | None = None) -> str:
    """What a script prints."""
    line = ["node", "--no-warnings", *map(str, words)]
    done = subprocess.run(line, input=text, capture_output=True, text=True, timeout=600)
    assert done.returncode == 0, done.stderr
    return done.stdout

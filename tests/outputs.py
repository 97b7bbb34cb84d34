"""Where the scripts write: below the repository's root, in which they are run, or below the folder that is their one argument."""
import os
import sys


def put(path, content):
    """Bytes or text as a file."""
    path = os.path.join(sys.argv[1] if len(sys.argv) > 1 else ".", path)
    os.makedirs(os.path.dirname(path), exist_ok=True)
    with open(path, "wb") as out:
        out.write(content if isinstance(content, bytes) else content.encode())

"""Files that are there whole or not at all."""
import os


def put_once(path, data):
    """Writes a file that isn't there yet, for its owner alone. Of two who do so at once one wins."""
    if path.exists():
        return
    made = path.with_name(f".{path.name}.{os.getpid()}")
    descriptor = os.open(made, os.O_WRONLY | os.O_CREAT | os.O_TRUNC, 0o600)
    try:
        with os.fdopen(descriptor, "wb") as file:
            file.write(data)
            file.flush()
            os.fsync(file.fileno())
        os.link(made, path)
    except FileExistsError:
        pass
    finally:
        made.unlink()


def write_whole(path, text):
    """Writes a file in place of one that may be there."""
    made = path.with_name(f".{path.name}.{os.getpid()}")
    with open(made, "w", encoding="utf-8") as file:
        file.write(text)
        file.flush()
        os.fsync(file.fileno())
    os.replace(made, path)

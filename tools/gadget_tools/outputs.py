"""Files that are written all together or not at all."""
import os
import tempfile

from .faults import Fault


class Outputs:
    """Gathers the files of one command. Nothing is written before `write`, and then every file is whole.

    A file that is there is replaced only where `force` is set, and a file that the command reads never is.
    """

    def __init__(self, force=False, inputs=()):
        self.force, self.inputs, self.files = force, [str(name) for name in inputs], {}

    def put(self, path, data):
        path = str(path)
        if os.path.realpath(path) in [os.path.realpath(other) for other in self.files]:
            raise Fault(path, "", "two files would have this name")
        self.files[path] = data

    def check(self, path):
        """Refuses a name that can't be written, before any work is done."""
        folder = os.path.dirname(path) or "."
        if not os.path.isdir(folder):
            raise Fault(path, "", "its folder isn't there")
        if os.path.isdir(path):
            raise Fault(path, "", "it is a folder")
        if os.path.realpath(path) in [os.path.realpath(name) for name in self.inputs]:
            raise Fault(path, "", "it is read by this command, and can't be written too")
        if os.path.lexists(path) and not self.force:
            raise Fault(path, "", "it is there already; --force replaces it")

    def write(self):
        for path in self.files:
            self.check(path)
        parts, made = {}, []
        try:
            for path, data in self.files.items():
                parts[path] = write_part(path, data)
            for path, part in parts.items():
                was_there = os.path.lexists(path)
                put_in_place(part, path, self.force)
                if not was_there:
                    made.append(path)
        except OSError as error:
            for name in made:
                os.remove(name)
            raise Fault(path, "", "it can't be written (%s)" % error.strerror) from None
        finally:
            for part in parts.values():
                if os.path.exists(part):
                    os.remove(part)


def put_in_place(part, path, force):
    """Gives a whole file its name; without `force` only where the name is still free."""
    if not force:
        try:
            os.link(part, path)
            return
        except FileExistsError:
            raise
        except OSError:                # a file system without links
            if os.path.lexists(path):
                raise
    os.replace(part, path)


def write_part(path, data):
    """The name of a new file beside `path` that holds the data."""
    handle, part = tempfile.mkstemp(prefix="." + os.path.basename(path) + ".", dir=os.path.dirname(path) or ".")
    try:
        with os.fdopen(handle, "wb") as file:
            file.write(data)
        umask = os.umask(0)
        os.umask(umask)
        os.chmod(part, 0o666 & ~umask)
    except OSError:
        os.remove(part)
        raise
    return part

"""A folder of its own for each run of the program, which is removed at the end."""
import os
import tempfile

MEMORY = "/dev/shm"


def fresh_folder(in_memory=False):
    """A new empty folder, for a `with`. In memory, if the system has room there, a sync costs nothing."""
    usable = in_memory and os.path.isdir(MEMORY) and os.access(MEMORY, os.W_OK)
    return tempfile.TemporaryDirectory(prefix="pagetree-", dir=MEMORY if usable else None)


def file_3(folder):
    """The path of a folder's file 3, in which journal 1 stands."""
    return os.path.join(folder, "pages.3")


def bytes_of(path):
    """The bytes of a file."""
    with open(path, "rb") as file:
        return file.read()

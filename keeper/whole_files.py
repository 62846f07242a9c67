"""Files that are put in their place whole, or not at all, and folders of them."""

import os
import stat
import tempfile

LINK = -1  # stands for the mode of a symbolic link, whose text is what it leads to
File = tuple[bytes, int]  # its text and its mode
Tree = dict[str, File]  # the files of a folder, by their names in it


def file_at(path: str) -> File | None:
    """What a file or a link is; None where it can't be read, or isn't there."""
    try:
        if os.path.islink(path):
            return os.readlink(os.fsencode(path)), LINK
        with open(path, "rb") as file:
            return file.read(), stat.S_IMODE(os.fstat(file.fileno()).st_mode)
    except OSError:
        return None


def has_tree(path: str, tree: Tree) -> bool:
    """Whether a folder has these files and no other, and everybody may enter all of it."""
    found = {}
    for folder, _, names in os.walk(path):
        if stat.S_IMODE(os.stat(folder).st_mode) != 0o755:
            return False
        wholes = [os.path.join(folder, name) for name in names]
        found.update({os.path.relpath(whole, path): file_at(whole) for whole in wholes})
    return found == tree


def put_file(path: str, text: bytes, mode: int) -> None:
    """Puts a file or a link in its place, and makes its folder. Raises OSError."""
    folder = os.path.dirname(path)
    os.makedirs(folder, exist_ok=True)
    with tempfile.TemporaryDirectory(dir=folder, prefix=".") as room:
        part = os.path.join(room, "part")
        if mode == LINK:
            os.symlink(text, os.fsencode(part))
        else:
            with open(part, "xb") as file:
                file.write(text)
            os.chmod(part, mode)
        os.replace(part, path)


def put_folder(path: str, tree: Tree) -> None:
    """Puts these files into a folder, one after the other as dpkg does, and then removes others. At
    each moment it has each file of the old version or of the new one. Raises OSError."""
    for name, (text, mode) in tree.items():
        put_file(os.path.join(path, name), text, mode)
    for folder, _, names in os.walk(path, topdown=False):
        os.chmod(folder, 0o755)
        for whole in (os.path.join(folder, name) for name in names):
            if os.path.relpath(whole, path) not in tree:
                os.unlink(whole)
        if not os.listdir(folder):
            os.rmdir(folder)

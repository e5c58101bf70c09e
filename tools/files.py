"""Files and folders, as the scripts that test the program read and write them."""
import os
import stat


def text_of(*parts):
    with open(os.path.join(*parts), encoding="utf-8") as file:
        return file.read()


def bytes_of(*parts):
    with open(os.path.join(*parts), "rb") as file:
        return file.read()


def write(path, data, mode=0o644):
    """Puts a new file where another may be, which a link may share, and makes its folders."""
    os.makedirs(os.path.dirname(path) or ".", exist_ok=True)
    if os.path.lexists(path):
        os.remove(path)
    with open(path, "wb") as file:
        file.write(data.encode("utf-8", "surrogateescape") if isinstance(data, str) else data)
    os.chmod(path, mode)


def write_all(folder, files):
    """Writes files by their names; None stands for a folder."""
    for name, data in files.items():
        if data is None:
            os.makedirs(os.path.join(folder, name))
        else:
            write(os.path.join(folder, name), data)


def found_in(folder, inside=""):
    """What stands in a folder: the bytes of each file, None for a folder, and a word for anything else."""
    found = {}
    with os.scandir(os.path.join(folder, inside)) as entries:
        for entry in entries:
            name = inside + entry.name
            if entry.is_dir(follow_symlinks=False):
                found[name] = None
                found.update(found_in(folder, name + "/"))
            elif entry.is_file(follow_symlinks=False):
                found[name] = bytes_of(entry.path)
            else:
                found[name] = "something that is no file (%o)" % stat.S_IFMT(entry.stat(follow_symlinks=False).st_mode)
    return found


def rows_of(table):
    """The rows of a table, and the comments after `//`. Between rows of a line stands ` ‖ `; of such rows that come to the
    same, which stands after ` =>`, the last one alone says to what."""
    for line in map(str.strip, table.strip().split("\n")):
        group = [line] if line.startswith("//") else line.split(" ‖ ")
        for at, row in enumerate(group):
            comes = next((each[each.index(" =>"):] for each in group[at:] if " =>" in each), "")
            yield row if " =>" in row or row.startswith("//") else row + comes

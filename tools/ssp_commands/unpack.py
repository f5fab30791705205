"""`ssp unpack FILE [DIR]`: an archive of a system (.ssp) or of an FMU (.fmu) as the folder that the program reads."""
import lzma
import os
import shutil
import stat
import zipfile
import zlib

from .common import DESCRIPTION, STRUCTURE, Told, one_line, room_in
from .suggest import cautions, suggestion
from .systems import read_system

ABOUT = """Unpacks an archive of a system (.ssp) or of an FMU (.fmu) into DIR, which isn't there before or is empty; where it isn't
given, it is the name of FILE without its ending. The FMUs and the packages (.ssp) in an archive of a system become folders that keep
their names, so that no source has to be edited. Nothing is written outside DIR, and nothing is left of an archive that isn't whole. FMUs that the program
refuses for their version are named, and those whose reals it passes over. The last line is the command that runs it; `ssp suggest
DIR` says how it is chosen."""
# the folders that a path in an archive may have, and the file
MOST_LEVELS = 256
# the packages that may stand in one another
MOST_PACKAGES = 8


def add_parser(subparsers):
    parser = subparsers.add_parser("unpack", help="unpacks an .ssp or .fmu archive", description=ABOUT)
    parser.add_argument("file", metavar="FILE", help="the archive")
    parser.add_argument("folder", metavar="DIR", nargs="?", help="the folder to make")
    return parser


def run(args):
    folder = args.folder or os.path.splitext(os.path.basename(args.file))[0]
    if os.path.isdir(folder) and os.listdir(folder):
        raise Told(f"{folder}: there is something in this folder: give another DIR")
    if os.path.lexists(folder) and not os.path.isdir(folder):
        raise Told(f"{folder} is there already, and is no folder: give another DIR")
    place = os.path.realpath(folder)
    is_there = os.path.isdir(place)
    above = place if is_there else os.path.dirname(place)
    if not os.path.isdir(above):
        raise Told(f"{above}: there is no such folder to make {os.path.basename(place)} in")
    # beside DIR, or in it where it is there, so that it can be put into its place as a whole
    with room_in(above, ".ssp-unpack-") as room:
        made = os.path.join(room, "made")
        files, fmus, packages = unpack(args.file, made)
        if is_there:
            for name in os.listdir(made):
                os.rename(os.path.join(made, name), os.path.join(place, name))
        else:
            os.rename(made, place)
    inner = [counted(number, what) for number, what in ((fmus, "FMU"), (packages, "package")) if number]
    of_inner = f", in folders of {' and '.join(inner)}" if inner else ""
    print(one_line(f"{folder}: {counted(files, 'file')}{of_inner}"))
    try:
        system = read_system(folder)
        lines = [*cautions(system), suggestion(system)[1]]
    except (Told, OSError) as why:
        lines = [f"No command is suggested: {why}"]
    for line in lines:
        print(one_line(line))


def counted(number, what):
    return f"{number} {what}{'' if number == 1 else 's'}"


def unpack(path, made):
    """Unpacks an archive of a system or of an FMU, and what is packed in the former; gives the numbers of files, FMUs and packages."""
    with opened(path, path) as archive:
        names = names_in(archive, path)
        if STRUCTURE in names:
            return unpack_system(archive, names, made, path, 0)
        if DESCRIPTION in names:
            return extract(archive, made, path), 0, 0
        raise Told(f"{path}: neither {STRUCTURE} nor {DESCRIPTION} is at its top{found_below(names)}")


def unpack_system(archive, names, made, what, level):
    """Unpacks an archive of a system and the FMUs and packages in it, which stands in so many others."""
    if level > MOST_PACKAGES:
        raise Told(f"{what}: it stands in more than {MOST_PACKAGES} packages")
    files, fmus, packages = extract(archive, made, what), 0, 0
    for name in sorted(names):
        place, inner = os.path.join(made, name), f"{what}: {name}"
        if name.lower().endswith(".fmu"):
            files += unpack_in_place(place, inner, DESCRIPTION, lambda one, _names: (extract(one, place, inner), 0, 0))[0] - 1
            fmus += 1
        elif name.lower().endswith(".ssp"):
            deeper = lambda one, its: unpack_system(one, its, place, inner, level + 1)
            more, more_fmus, more_packages = unpack_in_place(place, inner, STRUCTURE, deeper)
            files, fmus, packages = files + more - 1, fmus + more_fmus, packages + more_packages + 1
    return files, fmus, packages


def found_below(names):
    found = sorted(name for name in names if os.path.basename(name) in (STRUCTURE, DESCRIPTION))
    return f", but {found[0]} is in it: pack what is in that folder" if found else ""


def unpack_in_place(place, what, wanted, unpack_one):
    """Puts a folder of the same name in the place of an archive that has a wanted file."""
    packed = f"{place}.packed"
    while os.path.lexists(packed):
        packed += "_"
    os.rename(place, packed)
    with opened(packed, what) as archive:
        names = names_in(archive, what)
        if wanted not in names:
            raise Told(f"{what}: {wanted} isn't at its top")
        numbers = unpack_one(archive, names)
    os.remove(packed)
    return numbers


def opened(path, what):
    try:
        return zipfile.ZipFile(path)
    except (zipfile.BadZipFile, NotImplementedError, ValueError, UnicodeError) as error:
        raise Told(f"{what}: no archive that can be read: {error}") from None


def names_in(archive, what):
    """The names of an archive's files. None leads out of the folder, none stands twice, and none is a link."""
    names, folders = set(), set()
    for info in archive.infolist():
        name = info.orig_filename
        parts = name.rstrip("/").split("/")
        if any(part in ("", ".", "..") for part in parts) or "\\" in name or "\0" in name or ":" in parts[0]:
            raise Told(f"{what}: the path `{name}` in it isn't taken: it may lead out of the folder")
        if stat.S_ISLNK(info.external_attr >> 16):
            raise Told(f"{what}: `{name}` in it is a link, which isn't taken")
        if len(parts) > MOST_LEVELS:
            raise Told(f"{what}: `{name[:100]}..` in it lies in more than {MOST_LEVELS - 1} folders")
        if info.flag_bits & 1:
            raise Told(f"{what}: `{name}` in it is encrypted")
        if info.is_dir():
            folders.add("/".join(parts))
        elif name in names:
            raise Told(f"{what}: the path `{name}` stands twice in it")
        else:
            names.add(name)
        folders.update("/".join(parts[:count]) for count in range(1, len(parts)))
    both = sorted(names & folders)
    if both:
        raise Told(f"{what}: `{both[0]}` in it is a file and a folder")
    return names


def extract(archive, to, what):
    """Writes the files of an archive whose names are taken below a folder, and gives their number."""
    infos = archive.infolist()
    size = sum(info.file_size for info in infos)
    if size > shutil.disk_usage(os.path.dirname(to)).free:
        raise Told(f"{what}: there isn't room for the {size} bytes in it")
    count = 0
    for info in infos:
        path = os.path.join(to, *info.orig_filename.rstrip("/").split("/"))
        try:
            os.makedirs(path if info.is_dir() else os.path.dirname(path), exist_ok=True)
            if not info.is_dir():
                with archive.open(info) as source, open(path, "xb") as file:
                    shutil.copyfileobj(source, file, 1 << 20)
                if (info.external_attr >> 16) & 0o111:
                    os.chmod(path, 0o755)
                count += 1
        except (zipfile.BadZipFile, zlib.error, lzma.LZMAError, NotImplementedError, RuntimeError, EOFError, ValueError) as error:
            raise Told(f"{what}: `{info.orig_filename}` in it can't be read: {error}") from None
        except OSError as error:
            raise Told(f"{what}: `{info.orig_filename}` in it: {error.strerror or error}") from None
    return count

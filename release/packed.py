"""Archives whose bytes are given by their files and one time: names sorted, one owner, and modes 755 or 644."""
import gzip
import os
import stat
import tarfile
import time
import zipfile


def entries(folder):
    """The paths of all files and links below a folder, in the order of their names."""
    found = [os.path.join(at, name) for at, folders, names in os.walk(folder)
             for name in names + [each for each in folders if os.path.islink(os.path.join(at, each))]]
    return sorted(os.path.relpath(path, folder).replace(os.sep, '/') for path in found)


def mode(path):
    return 0o755 if os.stat(path).st_mode & stat.S_IXUSR else 0o644


def tar(folder, root, moment, place):
    """Writes a .tar.gz of a folder, whose names begin with a root."""
    with open(place, 'wb') as file, gzip.GzipFile('', 'wb', 9, file, mtime=0) as packed, \
            tarfile.open(fileobj=packed, mode='w', format=tarfile.USTAR_FORMAT) as archive:
        for name in entries(folder):
            path = os.path.join(folder, name)
            entry = archive.gettarinfo(path, '%s/%s' % (root, name))
            # A file under two names is written twice, so that the order of names decides nothing.
            entry.type = tarfile.SYMTYPE if os.path.islink(path) else tarfile.REGTYPE
            entry.size = 0 if os.path.islink(path) else os.path.getsize(path)
            entry.linkname = os.readlink(path) if os.path.islink(path) else ''
            entry.uid = entry.gid = 0
            entry.uname = entry.gname = ''
            entry.mtime, entry.mode = moment, 0o777 if os.path.islink(path) else mode(path)
            if os.path.islink(path):
                archive.addfile(entry)
            else:
                with open(path, 'rb') as content:
                    archive.addfile(entry, content)


def zipped(folder, root, moment, place):
    """Writes a .zip of a folder without links."""
    when = time.gmtime(moment)[:6]
    with zipfile.ZipFile(place, 'w') as archive:
        for name in entries(folder):
            entry = zipfile.ZipInfo('%s/%s' % (root, name), when)
            entry.create_system, entry.external_attr = 3, (stat.S_IFREG | mode(os.path.join(folder, name))) << 16
            entry.compress_type = zipfile.ZIP_DEFLATED
            with open(os.path.join(folder, name), 'rb') as content:
                archive.writestr(entry, content.read(), compresslevel=9)


def pack(folder, root, moment, place):
    (zipped if place.endswith('.zip') else tar)(folder, root, moment, place)


def unzipped(archive, folder):
    with zipfile.ZipFile(archive) as packed:
        packed.extractall(folder)
        for entry in packed.infolist():
            os.chmod(os.path.join(folder, entry.filename), entry.external_attr >> 16 & 0o777)
        return packed.namelist()


def untarred(archive, folder):
    with tarfile.open(archive) as packed:
        packed.extractall(folder)
        return packed.getnames()


def unpack(archive, folder):
    """Unpacks an archive, or a package of npm or cargo, and gives the one folder that it has at its top."""
    try:
        names = (unzipped if archive.endswith('.zip') else untarred)(archive, folder)
    except (tarfile.TarError, zipfile.BadZipFile) as fault:
        raise OSError('%s: %s' % (archive, fault)) from fault
    tops = {name.split('/')[0] for name in names}
    if len(tops) != 1:
        raise OSError('%s has not one folder at its top: %s' % (archive, ', '.join(sorted(tops))))
    return os.path.join(folder, tops.pop())

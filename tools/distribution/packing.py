"""Packs trees. Owners, times and the order of files are fixed, so that equal trees give equal bytes."""
import base64
import gzip
import hashlib
import io
import tarfile
import zipfile

# The first time that a zip file can have.
TIME = 315532800
ZIP_TIME = (1980, 1, 1, 0, 0, 0)


def folders_of(paths):
    """Returns the folders of some paths, each before those in it."""
    return sorted({"/".join(path.split("/")[:depth]) for path in paths for depth in range(1, path.count("/") + 1)})


def packed_tar(tree, prefix=""):
    """Returns a compressed tar archive of a tree below a prefix."""
    out = io.BytesIO()
    with tarfile.open(fileobj=out, mode="w", format=tarfile.GNU_FORMAT) as tar:
        for path in sorted(set(folders_of(prefix + path for path in tree)) | {prefix + path for path in tree}):
            leaf, entry = tree.get(path[len(prefix):]) if path.startswith(prefix) else None, tarfile.TarInfo(path)
            entry.mtime, entry.uname, entry.gname = TIME, "root", "root"
            if leaf is None:
                entry.type, entry.mode = tarfile.DIRTYPE, 0o755
            elif leaf.target:
                entry.type, entry.linkname, entry.mode = tarfile.SYMTYPE, leaf.target, 0o777
            else:
                entry.size, entry.mode = len(leaf.data), leaf.mode
            tar.addfile(entry, io.BytesIO(leaf.data) if leaf else None)
    return gzip.compress(out.getvalue(), 9, mtime=0)


def packed_ar(members):
    """Returns an ar archive of names and bytes, as a Debian package is one."""
    out = b"!<arch>\n"
    for name, data in members:
        out += b"%-16s%-12d%-6d%-6d%-8s%-10d`\n" % (name.encode(), TIME, 0, 0, b"100644", len(data)) + data + b"\n" * (len(data) % 2)
    return out


def packed_wheel(tree, name, version, metadata, tag):
    """Returns a wheel: a zip file with the tree, and with the descriptions that pip reads."""
    folder = "%s-%s.dist-info/" % (name, version)
    files = {path: leaf.data for path, leaf in tree.items()}
    files[folder + "METADATA"] = metadata
    files[folder + "WHEEL"] = b"Wheel-Version: 1.0\nGenerator: tools/dist\nRoot-Is-Purelib: %s\nTag: %s\n" % (b"true" if tag.endswith("-any") else b"false", tag.encode())
    rows = ["%s,sha256=%s,%d" % (path, digest(data), len(data)) for path, data in sorted(files.items())]
    files[folder + "RECORD"] = ("\n".join(rows) + "\n%sRECORD,,\n" % folder).encode()
    out = io.BytesIO()
    with zipfile.ZipFile(out, "w", zipfile.ZIP_DEFLATED, compresslevel=9) as packed:
        for path, data in sorted(files.items()):
            entry = zipfile.ZipInfo(path, ZIP_TIME)
            entry.compress_type, entry.create_system = zipfile.ZIP_DEFLATED, 3
            entry.external_attr = (0o100755 if path.endswith(".so") else 0o100644) << 16
            packed.writestr(entry, data)
    return out.getvalue()


def digest(data):
    return base64.urlsafe_b64encode(hashlib.sha256(data).digest()).rstrip(b"=").decode()

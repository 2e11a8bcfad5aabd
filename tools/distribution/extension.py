"""The extension of the package for Python, which gcc builds. It is of the limited API of Python 3.10, so that one file serves all later versions."""
import os
import subprocess
import sys
import sysconfig
import tempfile

HERE = os.path.dirname(os.path.abspath(__file__))
BINDINGS = os.path.normpath(os.path.join(HERE, "..", "..", "bindings"))
NAME = "_quick.abi3.so"
LIMITED_API = (3, 10)


def built_extension():
    """Returns the bytes of the extension. Raises OSError if this Python has no headers for it."""
    headers = sysconfig.get_path("include")
    if sys.version_info < LIMITED_API or not os.path.exists(os.path.join(headers, "Python.h")):
        raise OSError(2, "the extension needs Python 3.10 or later with its headers (python3-dev)", headers)
    with tempfile.TemporaryDirectory() as folder:
        path = os.path.join(folder, NAME)
        words = ["gcc", "-std=gnu11", "-O2", "-Wall", "-Wextra", "-Werror", "-shared", "-fPIC", "-s", "-DPy_LIMITED_API=0x%02X%02X0000" % LIMITED_API]
        subprocess.run([*words, "-I" + headers, "-I" + os.path.join(BINDINGS, "c"), "-o", path, os.path.join(BINDINGS, "python", "quick.c")], check=True)
        with open(path, "rb") as file:
            return file.read()

"""Puts the C library and the licences of its parts into the package, and names the platform that it is for. pyproject.toml has
the rest."""
import atexit
import os
import re
import shutil
import tempfile

from setuptools import setup
from setuptools.command.build_py import build_py
from setuptools.dist import Distribution

try:
    from setuptools.command.bdist_wheel import bdist_wheel
except ImportError:  # before setuptools 70.1
    from wheel.bdist_wheel import bdist_wheel

FOLDER = os.path.dirname(os.path.abspath(__file__))
LICENSES = os.path.join(FOLDER, "../../LICENSES")  # of both
PLACES = ("../../out/lib/libip_wire.so", "../../lib/libip_wire.so")  # of the source tree, of the release archive


def library():
    """The path of the library, its soname, and the platform that it is for."""
    places = [os.path.normpath(os.path.join(FOLDER, place)) for place in PLACES]
    path = os.environ.get("IP_WIRE_LIBRARY") or next(filter(os.path.exists, places), places[0])
    try:
        with open(path, "rb") as file:
            data = file.read()
    except OSError:
        raise SystemExit(f"ip_wire: there is no {path}: make build makes it") from None
    soname = re.search(rb"\0(libip_wire\.so\.\d+\.\d+)\0", data)
    if not soname:
        raise SystemExit(f"ip_wire: {path} is not the shared library")
    # The newest glibc of which it needs a symbol.
    versions = [(int(major), int(minor)) for major, minor in re.findall(rb"\0GLIBC_(\d+)\.(\d+)", data)]
    platform = "manylinux_%d_%d_x86_64" % max([(2, 17), *versions]) if versions else "linux_x86_64"
    return path, soname[1].decode(), platform


PATH, SONAME, PLATFORM = library()


class Build(build_py):
    def run(self):
        super().run()
        package = os.path.join(self.build_lib, "ip_wire")
        shutil.copyfile(PATH, os.path.join(package, SONAME))
        shutil.copytree(LICENSES, os.path.join(package, "LICENSES"), dirs_exist_ok=True)


class Wheel(bdist_wheel):
    """For each version of Python."""

    def get_tag(self):
        return "py3", "none", PLATFORM


class Binary(Distribution):
    def has_ext_modules(self):
        return True


# So that nothing old gets into the wheel, and the folder stays as it is.
room = tempfile.mkdtemp()
atexit.register(shutil.rmtree, room, ignore_errors=True)
setup(
    license="0BSD AND MIT",
    distclass=Binary,
    cmdclass={"build_py": Build, "bdist_wheel": Wheel},
    options={"build": {"build_base": room}, "egg_info": {"egg_base": room}},
)

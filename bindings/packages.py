"""Packages the library: as files below a prefix for C programs, as packages for Debian, and as a wheel for Python."""

import pathlib
import re
import shutil
import subprocess
import sys
import tempfile

from workspace import BINDINGS, OUT, TOP, run

PKG_CONFIG = """\
prefix={prefix}
libdir=${{prefix}}/lib
includedir=${{prefix}}/include

Name: ijson
Description: {summary}
Version: {version}
Libs: -L${{libdir}} -lijson
Cflags: -I${{includedir}}
"""
SUMMARY = "JSON with exact decimals, by functions that are proved"
CONTROL = """\
Package: {name}
Version: {version}
Architecture: amd64
Maintainer: The ijson developers
Section: {section}
Depends: {depends}
Description: {summary}
"""


class Missing(Exception):
    """Reports that a tool is missing."""


def version():
    """Returns the version that the header states."""
    return re.search(r'#define IJSON_VERSION "(.*)"', (BINDINGS / "c" / "ijson.h").read_text())[1]


def install(prefix, root=None):
    """Copies the header, the libraries and a file for pkg-config below a prefix, or below the prefix in the folder `root`."""
    prefix = pathlib.Path(prefix).resolve()
    top = root / prefix.relative_to("/") if root else prefix
    include, libraries, config = top / "include", top / "lib", top / "lib" / "pkgconfig"
    for folder in include, libraries, config:
        folder.mkdir(parents=True, exist_ok=True)
    shutil.copy(OUT / "ijson.h", include)
    shutil.copy(OUT / "libijson.a", libraries)
    real = f"libijson.so.{version()}"
    shutil.copy(OUT / "libijson.so", libraries / real)
    # A program is linked by the name without a number, and at its start loads the name with the major version.
    for link in "libijson.so.0", "libijson.so":
        (libraries / link).unlink(missing_ok=True)
        (libraries / link).symlink_to(real)
    (config / "ijson.pc").write_text(PKG_CONFIG.format(prefix=prefix, version=version(), summary=SUMMARY))


def debian():
    """Makes two packages for Debian in out/: the shared library, and the files for compiling programs. Returns their paths."""
    if not shutil.which("dpkg-deb"):
        raise Missing("dpkg-deb is missing")
    with tempfile.TemporaryDirectory() as work:
        library, development = pathlib.Path(work, "libijson0"), pathlib.Path(work, "libijson-dev")
        install("/usr", development)
        (library / "usr/lib").mkdir(parents=True)
        for path in development.glob("usr/lib/libijson.so.*"):
            shutil.move(path, library / "usr/lib")
        return [
            package(library, "libs", "libc6", triggers="activate-noawait ldconfig\n"),
            package(development, "libdevel", f"libijson0 (= {version()})"),
        ]


def package(folder, section, depends, triggers=""):
    """Makes a package for Debian from a folder that has the name of the package, and has files below `usr`."""
    control, licenses = folder / "DEBIAN", folder / "usr/share/doc" / folder.name
    control.mkdir()
    control.joinpath("control").write_text(
        CONTROL.format(name=folder.name, version=version(), section=section, depends=depends, summary=SUMMARY)
    )
    control.joinpath("triggers").write_text(triggers)
    licenses.mkdir(parents=True)
    for license in TOP.glob("LICENSE-*"):
        shutil.copy(license, licenses)
    made = OUT / f"{folder.name}_{version()}_amd64.deb"
    run(["dpkg-deb", "--root-owner-group", "--build", folder, made], OUT, stdout=subprocess.DEVNULL)
    return made


def python_with_wheel():
    """Returns a Python that has setuptools and wheel: the running Python, or Debian's."""
    for python in sys.executable, "/usr/bin/python3":
        if not subprocess.run([python, "-c", "import setuptools, wheel, pip"], capture_output=True).returncode:
            return python
    raise Missing("a Python with pip, setuptools and wheel is missing, in Debian python3-pip and python3-wheel")


def wheel():
    """Makes the wheel in out/, and returns its path."""
    with tempfile.TemporaryDirectory() as work:
        source = pathlib.Path(work, "source")
        shutil.copytree(BINDINGS / "python", source, ignore=shutil.ignore_patterns("__pycache__", "build", "*.egg-info"))
        for license in TOP.glob("LICENSE-*"):
            shutil.copy(license, source)
        shutil.copy(OUT / "libijson.so", source / "ijson_proved")
        run([python_with_wheel(), "-m", "pip", "wheel", "--quiet", "--no-index", "--no-deps", "--no-build-isolation", "--wheel-dir", work, source], work)
        made = next(pathlib.Path(work).glob("*.whl"))
        return pathlib.Path(shutil.copy(made, OUT))

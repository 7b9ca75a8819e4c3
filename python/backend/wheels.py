"""The build backend (PEP 517, PEP 660): writes the wheel of the package with the shared library in it. It needs nothing but Python.

The library is the file that HWEMIDUK_LIBRARY names; else target/lib/libhwemiduk.so, which bin/build-shared links first where the proved
archive is newer. The wheel is for the processor that the library is for.
"""

import base64
import hashlib
import os
import re
import struct
import subprocess
import tarfile
import zipfile
from pathlib import Path

HERE = Path(__file__).resolve().parent.parent
SOURCE = HERE / "src" / "hwemiduk"
ROOT = HERE.parent
LIBRARY = "libhwemiduk.so"
# By the number in the file's header.
PROCESSORS = {62: "x86_64", 183: "aarch64"}


def version():
    """The version that the package says it is."""
    return re.search(r'^__version__ = "(.*)"$', (SOURCE / "__init__.py").read_text(), re.MULTILINE).group(1)


def project(name):
    """A text of pyproject.toml."""
    return re.search(rf'^{name} = "(.*)"$', (HERE / "pyproject.toml").read_text(), re.MULTILINE).group(1)


def metadata():
    return (
        "Metadata-Version: 2.1\n"
        f"Name: {project('name')}\n"
        f"Version: {version()}\n"
        f"Summary: {project('description')}\n"
        f"Requires-Python: {project('requires-python')}\n"
    )


def library():
    """The shared library that goes into the wheel."""
    named = os.environ.get("HWEMIDUK_LIBRARY")
    path = Path(named) if named else ROOT / "target" / "lib" / LIBRARY
    archive = ROOT / "target" / "staticlib" / "libexport.a"
    if not named and archive.is_file() and not (path.is_file() and path.stat().st_mtime >= archive.stat().st_mtime):
        if subprocess.run([str(ROOT / "bin" / "build-shared")]).returncode:
            raise SystemExit("hwemiduk: bin/build-shared did not link the library: see above")
    if not path.is_file():
        raise SystemExit(
            f"hwemiduk: there is no library to put into the package: it is not at {path}. bin/build-shared builds it; or set HWEMIDUK_LIBRARY to where it is"
        )
    return path.resolve()


def platform(path):
    """The platform that a library is for, by its header."""
    with open(path, "rb") as file:
        head = file.read(20)
    if head[:5] != b"\x7fELF\x02":
        raise SystemExit(f"hwemiduk: {path} is no shared library of 64 bits for Linux")
    return "linux_" + PROCESSORS.get(struct.unpack_from("<H", head, 18)[0], "unknown")


def sources():
    return sorted(path for path in SOURCE.iterdir() if path.suffix == ".py" or path.name == "py.typed")


def wheel(folder, tag, files):
    """Writes a wheel of files, each a name and its bytes; times are fixed, so that equal files give equal wheels."""
    about = f"hwemiduk-{version()}.dist-info"
    pure = "true" if tag.endswith("-any") else "false"
    files = [
        *files,
        (f"{about}/METADATA", metadata().encode()),
        (f"{about}/WHEEL", f"Wheel-Version: 1.0\nGenerator: hwemiduk\nRoot-Is-Purelib: {pure}\nTag: {tag}\n".encode()),
    ]
    record = "".join(
        f"{name},sha256={base64.urlsafe_b64encode(hashlib.sha256(data).digest()).decode().rstrip('=')},{len(data)}\n" for name, data in files
    )
    name = f"hwemiduk-{version()}-{tag}.whl"
    with zipfile.ZipFile(Path(folder) / name, "w", zipfile.ZIP_DEFLATED) as archive:
        for path, data in [*files, (f"{about}/RECORD", f"{record}{about}/RECORD,,\n".encode())]:
            entry = zipfile.ZipInfo(path, (1980, 1, 1, 0, 0, 0))
            entry.compress_type = zipfile.ZIP_DEFLATED
            entry.external_attr = (0o100755 if path.endswith(".so") else 0o100644) << 16
            archive.writestr(entry, data)
    return name


def prepare_metadata_for_build_wheel(metadata_directory, config_settings=None):
    """What a wheel will say of itself, without building one."""
    about = Path(metadata_directory) / f"hwemiduk-{version()}.dist-info"
    about.mkdir()
    (about / "METADATA").write_text(metadata())
    return about.name


prepare_metadata_for_build_editable = prepare_metadata_for_build_wheel


def build_wheel(wheel_directory, config_settings=None, metadata_directory=None):
    shared = library()
    files = [(f"hwemiduk/{path.name}", path.read_bytes()) for path in sources()]
    return wheel(wheel_directory, f"py3-none-{platform(shared)}", [*files, (f"hwemiduk/{LIBRARY}", shared.read_bytes())])


def build_editable(wheel_directory, config_settings=None, metadata_directory=None):
    """A wheel that points to src/, where the package finds the library of the repository."""
    return wheel(wheel_directory, "py3-none-any", [("hwemiduk.pth", f"{SOURCE.parent}\n".encode())])


def build_sdist(sdist_directory, config_settings=None):
    """The sources; a wheel can be built of them where HWEMIDUK_LIBRARY names the library."""
    name = f"hwemiduk-{version()}"
    about = Path(sdist_directory) / "PKG-INFO"
    about.write_text(metadata())
    with tarfile.open(Path(sdist_directory) / f"{name}.tar.gz", "w:gz") as archive:
        for path in [HERE / "pyproject.toml", Path(__file__).resolve(), *sources()]:
            archive.add(path, f"{name}/{path.relative_to(HERE)}")
        archive.add(about, f"{name}/PKG-INFO")
    about.unlink()
    return f"{name}.tar.gz"

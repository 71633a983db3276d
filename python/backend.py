"""Builds the wheel of dtool, by the standard library alone (PEP 517): `pip install ./python` needs no network.

The wheel holds the package and libdtool.so: the one beside the package, else the one that DTOOL_LIBRARY names, else the one that
`tools/build --library` made. Its tag names the platform of that library.
"""
import base64
import hashlib
import io
import os
import re
import struct
import tarfile
import zipfile

HERE = os.path.dirname(os.path.abspath(__file__))
NAME = "dtool"
PLATFORMS = {62: "linux_x86_64", 183: "linux_aarch64"}  # by e_machine of the ELF header


def _text(name):
    with open(os.path.join(HERE, name), encoding="utf-8") as file:
        return file.read()


def _project(key):
    return re.search(rf'^{key} = "([^"]*)"', _text("pyproject.toml"), re.MULTILINE).group(1)


def _library():
    """The bytes of libdtool.so."""
    named = os.environ.get("DTOOL_LIBRARY", "")
    if named and os.path.isdir(named):
        named = os.path.join(named, "libdtool.so")
    built = os.path.join(HERE, "..", "crates", "dt_c", "out", "libdtool.so")
    for path in (os.path.join(HERE, NAME, "libdtool.so"), named, built):
        if path and os.path.isfile(path):
            with open(path, "rb") as file:
                return file.read()
    raise SystemExit("dtool: no libdtool.so: run tools/build --library, or set DTOOL_LIBRARY to its path")


def _platform(library):
    if library[:4] != b"\x7fELF":
        raise SystemExit("dtool: libdtool.so is no ELF file")
    (machine,) = struct.unpack_from("<H", library, 18)
    if machine not in PLATFORMS:
        raise SystemExit(f"dtool: libdtool.so is for another processor, e_machine {machine}")
    return PLATFORMS[machine]


def _metadata():
    return (
        f"Metadata-Version: 2.1\nName: {NAME}\nVersion: {_project('version')}\n"
        f"Summary: {_project('description')}\nRequires-Python: {_project('requires-python')}\n"
    )


def _wheel_text(platform):
    return f"Wheel-Version: 1.0\nGenerator: dtool\nRoot-Is-Purelib: false\nTag: py3-none-{platform}\n"


ENTRY_POINTS = "[console_scripts]\n" + "".join(f"dtool-{name} = dtool.{name}:main\n" for name in ("lint", "report", "same"))


def _sources():
    folder = os.path.join(HERE, NAME)
    for name in sorted(os.listdir(folder)):
        if name.endswith(".py") or name == "py.typed":
            with open(os.path.join(folder, name), "rb") as file:
                yield f"{NAME}/{name}", file.read()


def get_requires_for_build_wheel(config_settings=None):
    return []


def get_requires_for_build_sdist(config_settings=None):
    return []


def prepare_metadata_for_build_wheel(metadata_directory, config_settings=None):
    info = f"{NAME}-{_project('version')}.dist-info"
    folder = os.path.join(metadata_directory, info)
    os.makedirs(folder, exist_ok=True)
    for name, text in (("METADATA", _metadata()), ("WHEEL", _wheel_text(_platform(_library()))), ("entry_points.txt", ENTRY_POINTS)):
        with open(os.path.join(folder, name), "w", encoding="utf-8") as file:
            file.write(text)
    return info


def build_wheel(wheel_directory, config_settings=None, metadata_directory=None):
    library = _library()
    platform = _platform(library)
    version = _project("version")
    info = f"{NAME}-{version}.dist-info"
    files = [*_sources(), (f"{NAME}/libdtool.so", library), (f"{info}/METADATA", _metadata().encode()),
             (f"{info}/WHEEL", _wheel_text(platform).encode()), (f"{info}/entry_points.txt", ENTRY_POINTS.encode())]
    record = "".join(f"{name},sha256={_digest(data)},{len(data)}\n" for name, data in files) + f"{info}/RECORD,,\n"
    wheel = f"{NAME}-{version}-py3-none-{platform}.whl"
    with zipfile.ZipFile(os.path.join(wheel_directory, wheel), "w", zipfile.ZIP_DEFLATED) as archive:
        for name, data in [*files, (f"{info}/RECORD", record.encode())]:
            entry = zipfile.ZipInfo(name, (1980, 1, 1, 0, 0, 0))  # the same bytes from the same files
            entry.compress_type = zipfile.ZIP_DEFLATED
            entry.external_attr = (0o755 if name.endswith(".so") else 0o644) << 16
            archive.writestr(entry, data)
    return wheel


def _digest(data):
    return base64.urlsafe_b64encode(hashlib.sha256(data).digest()).rstrip(b"=").decode()


def build_sdist(sdist_directory, config_settings=None):
    base = f"{NAME}-{_project('version')}"
    name = f"{base}.tar.gz"
    with tarfile.open(os.path.join(sdist_directory, name), "w:gz") as archive:
        files = [("PKG-INFO", _metadata().encode()), ("pyproject.toml", _text("pyproject.toml").encode()),
                 ("backend.py", _text("backend.py").encode()), (f"{NAME}/libdtool.so", _library()), *_sources()]
        for path, data in files:
            entry = tarfile.TarInfo(f"{base}/{path}")
            entry.size = len(data)
            entry.mode = 0o644
            archive.addfile(entry, io.BytesIO(data))
    return name

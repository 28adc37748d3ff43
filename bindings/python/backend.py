"""Builds the wheel of this package with Python alone. pip calls it, so that no network and no other package is needed.

The wheel contains the shared library that `make lib` puts below the top of the repository, or the one inside a source package.
PULLDOWN_CMARK_LIBRARY names another one.
"""
import base64
import hashlib
import os
import io
import pathlib
import sysconfig
import tarfile
import zipfile

HERE = pathlib.Path(__file__).resolve().parent
NAME, VERSION = "pulldown_cmark", "0.13.6"
# The library's file in a source package, and the file that `make lib` makes.
INSIDE = HERE / "native" / "libpulldown_cmark.so"
LIBRARY = HERE.parent.parent / "bin" / "lib" / "libpulldown_cmark.so"
INFO = f"{NAME}-{VERSION}.dist-info"
METADATA = f"""Metadata-Version: 2.1
Name: {NAME}
Version: {VERSION}
Summary: Markdown to HTML and to events, proved
License: MIT
Requires-Python: >=3.8
Description-Content-Type: text/markdown

"""


def tag(platform=None):
    """The tag of the wheel: any Python 3, on this machine's processor type and system, or on the given platform."""
    here = sysconfig.get_platform().replace("-", "_").replace(".", "_")
    return f"py3-none-{platform or here}"


def library():
    """The shared library that goes into the wheel."""
    named = os.environ.get("PULLDOWN_CMARK_LIBRARY")
    found = pathlib.Path(named) if named else INSIDE if INSIDE.is_file() else LIBRARY
    if not found.is_file():
        raise SystemExit(f"pulldown_cmark: there is no shared library {found}: run make lib at the top of the repository first")
    return found


def information(platform=None):
    """The files of the wheel that describe it."""
    wheel = f"Wheel-Version: 1.0\nGenerator: {NAME} backend\nRoot-Is-Purelib: false\nTag: {tag(platform)}\n"
    return {f"{INFO}/METADATA": METADATA.encode() + (HERE / "README.md").read_bytes(), f"{INFO}/WHEEL": wheel.encode()}


def package():
    """The files of the package, except the library."""
    return {f"{NAME}/{it.name}": it.read_bytes() for it in sorted((HERE / NAME).iterdir()) if it.suffix == ".py" or it.name == "py.typed"}


def files(platform=None):
    """All files of the wheel, except the list of them."""
    return {**package(), f"{NAME}/libpulldown_cmark.so": library().read_bytes(), **information(platform)}


def source_files():
    """The files of the source package. It contains the library, so building the wheel from it needs no toolchain."""
    found = {it: (HERE / it).read_bytes() for it in ("README.md", "backend.py", "pyproject.toml")}
    return {**found, **package(), "PKG-INFO": information()[f"{INFO}/METADATA"], "native/libpulldown_cmark.so": library().read_bytes()}


def row(path, data):
    """A file's row in the list of files."""
    digest = base64.urlsafe_b64encode(hashlib.sha256(data).digest()).rstrip(b"=").decode()
    return f"{path},sha256={digest},{len(data)}\n"


def build_wheel(wheel_directory, config_settings=None, metadata_directory=None):
    """Writes the wheel, and returns its name. The settings may give a `platform` for its tag, and `more` files that describe it."""
    wishes = config_settings or {}
    platform = wishes.get("platform")
    held = files(platform)
    held.update({f"{INFO}/{path}": data for path, data in wishes.get("more", {}).items()})
    held[f"{INFO}/RECORD"] = ("".join(row(*it) for it in held.items()) + f"{INFO}/RECORD,,\n").encode()
    name = f"{NAME}-{VERSION}-{tag(platform)}.whl"
    with zipfile.ZipFile(pathlib.Path(wheel_directory) / name, "w", zipfile.ZIP_DEFLATED) as wheel:
        for path, data in held.items():
            made = zipfile.ZipInfo(path, (1980, 1, 1, 0, 0, 0))
            made.external_attr = (0o755 if path.endswith(".so") else 0o644) << 16
            wheel.writestr(made, data, zipfile.ZIP_DEFLATED)
    return name


def prepare_metadata_for_build_wheel(metadata_directory, config_settings=None):
    """Writes the files that describe the wheel, and returns the name of their folder."""
    for path, data in information().items():
        place = pathlib.Path(metadata_directory) / path
        place.parent.mkdir(parents=True, exist_ok=True)
        place.write_bytes(data)
    return INFO


def build_sdist(sdist_directory, config_settings=None):
    """Writes the source package, and returns its name."""
    folder = f"{NAME}-{VERSION}"
    with tarfile.open(pathlib.Path(sdist_directory) / f"{folder}.tar.gz", "w:gz", format=tarfile.PAX_FORMAT) as tar:
        for path, data in sorted(source_files().items()):
            entry = tarfile.TarInfo(f"{folder}/{path}")
            entry.size = len(data)
            tar.addfile(entry, io.BytesIO(data))
    return f"{folder}.tar.gz"

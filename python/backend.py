"""Builds the package's wheel, for pip: the files of stramashly/ and what a wheel says of itself.

setuptools would do, but older ones need a package `wheel` that may not be at hand; this needs Python alone.
"""

import base64
import hashlib
import os
import re
import tarfile
import zipfile

HERE = os.path.dirname(os.path.abspath(__file__))
# The oldest time that a zip file can say, so that the same files make the same wheel.
TIME = (1980, 1, 1, 0, 0, 0)


def _value(key):
    """A line of pyproject.toml; older Pythons have no reader for it."""
    with open(os.path.join(HERE, "pyproject.toml"), encoding="utf-8") as file:
        return re.search(rf'^{key} = "(.*)"$', file.read(), re.MULTILINE).group(1)


def _stem():
    return f"{_value('name')}-{_value('version')}"


def _metadata():
    lines = [
        "Metadata-Version: 2.1",
        f"Name: {_value('name')}",
        f"Version: {_value('version')}",
        f"Summary: {_value('description')}",
        "License: MIT",
        f"Requires-Python: {_value('requires-python')}",
        "Description-Content-Type: text/markdown",
        "",
    ]
    with open(os.path.join(HERE, "README.md"), encoding="utf-8") as file:
        return "\n".join(lines) + "\n" + file.read()


def _wheel():
    return "Wheel-Version: 1.0\nGenerator: stramashly\nRoot-Is-Purelib: true\nTag: py3-none-any\n"


def _sources():
    folder = os.path.join(HERE, "stramashly")
    names = sorted(name for name in os.listdir(folder) if name.endswith((".py", ".typed")))
    for name in names:
        with open(os.path.join(folder, name), "rb") as file:
            yield f"stramashly/{name}", file.read()


def get_requires_for_build_wheel(config_settings=None):
    return []


def get_requires_for_build_sdist(config_settings=None):
    return []


def prepare_metadata_for_build_wheel(metadata_directory, config_settings=None):
    name = f"{_stem()}.dist-info"
    folder = os.path.join(metadata_directory, name)
    os.makedirs(folder, exist_ok=True)
    for file, text in (("METADATA", _metadata()), ("WHEEL", _wheel())):
        with open(os.path.join(folder, file), "w", encoding="utf-8") as out:
            out.write(text)
    return name


def build_wheel(wheel_directory, config_settings=None, metadata_directory=None):
    about = f"{_stem()}.dist-info"
    members = [*_sources(), (f"{about}/METADATA", _metadata().encode()), (f"{about}/WHEEL", _wheel().encode())]
    record = ""
    for name, data in members:
        digest = base64.urlsafe_b64encode(hashlib.sha256(data).digest()).rstrip(b"=").decode()
        record += f"{name},sha256={digest},{len(data)}\n"
    record += f"{about}/RECORD,,\n"
    members.append((f"{about}/RECORD", record.encode()))
    name = f"{_stem()}-py3-none-any.whl"
    with zipfile.ZipFile(os.path.join(wheel_directory, name), "w", zipfile.ZIP_DEFLATED) as wheel:
        for member, data in members:
            entry = zipfile.ZipInfo(member, TIME)
            entry.external_attr = 0o644 << 16
            entry.compress_type = zipfile.ZIP_DEFLATED
            wheel.writestr(entry, data)
    return name


def build_sdist(sdist_directory, config_settings=None):
    name = f"{_stem()}.tar.gz"
    with tarfile.open(os.path.join(sdist_directory, name), "w:gz") as archive:
        for part in ("pyproject.toml", "README.md", "backend.py", "stramashly"):
            archive.add(os.path.join(HERE, part), f"{_stem()}/{part}", filter=_without_caches)
    return name


def _without_caches(member):
    return None if "__pycache__" in member.name else member

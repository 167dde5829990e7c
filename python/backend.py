"""Builds the module lasso, with the library for C in its extension module. pip calls it, as pyproject.toml says; run as a program it builds
the extension module into the folder lasso.

The library is the archive liblasso.a that the environment variable LASSO_LIBRARY names, or else the one that pkg-config finds.
"""

from __future__ import annotations

import ctypes
import os
import re
import shlex
import subprocess
import sys
import sysconfig
import tempfile
import zipfile
from base64 import urlsafe_b64encode
from hashlib import sha256
from pathlib import Path
from typing import Any

HERE = Path(__file__).resolve().parent
PROJECT: dict[str, str] = dict(re.findall(r'^([\w-]+) = "(.*)"$', (HERE / "pyproject.toml").read_text(encoding="utf-8"), re.M))
VERSION = re.findall(r'^__version__ = "(.*)"$', (HERE / "lasso/__init__.py").read_text(encoding="utf-8"), re.M)[0]
CORE = "_core.abi3.so"
FOLDER = f"lasso-{VERSION}.dist-info"


def build_wheel(wheel_directory: str, config_settings: Any = None, metadata_directory: Any = None) -> str:
    """Writes the wheel into a folder, and returns its name."""
    files = {f"lasso/{file.name}": file.read_bytes() for file in sorted((HERE / "lasso").iterdir()) if file.suffix in (".py", ".pyi", ".typed")}
    with tempfile.TemporaryDirectory() as folder:
        files[f"lasso/{CORE}"] = build_core(Path(folder) / CORE).read_bytes()
    platform = re.sub(r"\W", "_", sysconfig.get_platform())
    return _write(wheel_directory, f"cp311-abi3-{platform}", files)


def build_editable(wheel_directory: str, config_settings: Any = None, metadata_directory: Any = None) -> str:
    """The same for ``pip install -e``: a wheel that leads to this folder, in which the extension module is built."""
    # Python runs a line of a .pth file that begins with `import`, and cuts blanks at the end of one.
    if not str(HERE).isprintable() or str(HERE).endswith(" "):
        sys.exit(f"{str(HERE)!r}: no .pth file can name such a folder")
    build_core(HERE / "lasso" / CORE)
    return _write(wheel_directory, "py3-none-any", {"lasso.pth": f"{HERE}\n".encode()})


def build_sdist(sdist_directory: str, config_settings: Any = None) -> str:
    sys.exit("lasso has no source distribution, since the library is not built by Python: build a wheel")


def build_core(path: Path) -> Path:
    """Compiles the extension module, with the library in it, to this path. One that is there stays unless the new one can be loaded."""
    if sysconfig.get_config_var("Py_GIL_DISABLED"):
        sys.exit("lasso needs a Python with its global lock: this one is free-threaded")
    headers = sysconfig.get_paths()["include"]
    if not (Path(headers) / "Python.h").is_file():
        sys.exit(f"{headers}/Python.h is missing: install the headers of Python, as Debian's python3-dev")
    library, header = _library()
    with tempfile.TemporaryDirectory(dir=path.parent) as folder:
        made = Path(folder) / CORE
        status, said = _run_compiler([
            "-O2", "-fPIC", "-shared", "-pthread", "-fvisibility=hidden", "-std=c11", f"-I{headers}", f"-I{header}",
            *sorted(map(str, (HERE / "core").glob("*.c"))), str(library), "-Wl,--exclude-libs,ALL", "-Wl,-z,now,-z,relro", "-o", str(made),
        ])
        if status != 0 or not made.is_file():
            sys.exit(f"the extension module can't be built with {library}: the compiler ended with status {status}\n{said}")
        try:
            ctypes.PyDLL(str(made), os.RTLD_NOW)
        except OSError as fault:
            sys.exit(f"{library} is no library of lasso: {fault}")
        os.replace(made, path)
    return path


def _run_compiler(words: list[str]) -> tuple[int, str]:
    """The status of the compiler that CC names, and what it said."""
    named = os.environ.get("CC") or "cc"
    try:
        run = subprocess.run([*shlex.split(named), *words], stdout=subprocess.PIPE, stderr=subprocess.STDOUT, text=True, errors="replace", check=False)
    except (OSError, ValueError) as fault:
        sys.exit(f"CC={named}: this compiler can't be run: {fault}")
    return run.returncode, run.stdout


def _library() -> tuple[Path, Path]:
    """The archive that goes into the module, and the folder of lasso.h."""
    named = os.environ.get("LASSO_LIBRARY", "")
    # Of an absolute path no compiler takes the beginning for an option.
    library = (Path(named) if named else Path(_variable("libdir")) / "liblasso.a").absolute()
    if named and library.suffix != ".a":
        sys.exit(f"LASSO_LIBRARY={named}: name the archive liblasso.a, which goes into the module")
    if not library.is_file():
        sys.exit(f"LASSO_LIBRARY={named}: there is no such file: {library}" if named else f"{library}, which lasso.pc names, is missing")
    own = HERE.parent / "crates/lasso_c/include"
    header = own if named and own.is_dir() else library.parent.parent / "include" if named else Path(_variable("includedir"))
    if not (header / "lasso.h").is_file():
        sys.exit(f"{header}/lasso.h is missing")
    return library, header


def _variable(name: str) -> str:
    """A folder that lasso.pc names."""
    try:
        run = subprocess.run(["pkg-config", f"--variable={name}", "lasso"], stdout=subprocess.PIPE, stderr=subprocess.STDOUT, text=True, errors="surrogateescape", check=False)
        found, said = run.stdout.strip() if run.returncode == 0 else "", run.stdout
    except OSError as fault:
        found, said = "", str(fault)
    if not found:
        why = f" ({said.strip()})" if said.strip() else ""
        sys.exit(f"no library of lasso: install it, name the folder of lasso.pc in PKG_CONFIG_PATH, or liblasso.a in LASSO_LIBRARY{why}")
    return found


def _write(folder: str, tag: str, files: dict[str, bytes]) -> str:
    """Writes a wheel of these files, and returns its name."""
    name = f"lasso-{VERSION}-{tag}.whl"
    pure = str(tag.endswith("any")).lower()
    files[f"{FOLDER}/WHEEL"] = f"Wheel-Version: 1.0\nGenerator: lasso\nRoot-Is-Purelib: {pure}\nTag: {tag}\n".encode()
    files[f"{FOLDER}/METADATA"] = _metadata()
    for licence in sorted(HERE.parent.glob("LICENSE-*")):
        files[f"{FOLDER}/licenses/{licence.name}"] = licence.read_bytes()
    record = [f"{path},sha256={urlsafe_b64encode(sha256(data).digest()).decode().rstrip('=')},{len(data)}" for path, data in files.items()]
    files[f"{FOLDER}/RECORD"] = "\n".join([*record, f"{FOLDER}/RECORD,,", ""]).encode()
    with zipfile.ZipFile(Path(folder) / name, "w", zipfile.ZIP_DEFLATED) as wheel:
        for path, data in files.items():
            entry = zipfile.ZipInfo(path)  # Of a fixed date, so that the same files make the same wheel.
            entry.compress_type = zipfile.ZIP_DEFLATED
            entry.external_attr = 0o100644 << 16
            wheel.writestr(entry, data)
    return name


def _metadata() -> bytes:
    lines = [
        "Metadata-Version: 2.1", f"Name: {PROJECT['name']}", f"Version: {VERSION}", f"Summary: {PROJECT['description']}",
        "License: MIT OR Apache-2.0", f"Requires-Python: {PROJECT['requires-python']}", "Description-Content-Type: text/markdown", "",
    ]
    return ("\n".join(lines) + "\n" + (HERE / PROJECT["readme"]).read_text(encoding="utf-8")).encode()


if __name__ == "__main__":
    print(build_core(HERE / "lasso" / CORE))

#!/usr/bin/env python3
"""header.py: the header beside what it declares.

    header.py HEADER ARCHIVE

Compares the names that the header declares with those that the archive exports (``nm``), and each declaration of Rust
(``rust/src/ffi.rs``) and of Python (``python/max35101/_library.py``) with the header's, type by type.
"""

from __future__ import annotations

import ctypes
import re
import subprocess
import sys
from pathlib import Path
from typing import Any

HERE = Path(__file__).parent
sys.path.insert(0, str(HERE / "python"))

from max35101 import _library  # noqa: E402

NUMBERS: dict[str, tuple[str, Any]] = {
    "uint8_t": ("u8", ctypes.c_uint8),
    "uint32_t": ("u32", ctypes.c_uint32),
    "int32_t": ("i32", ctypes.c_int32),
    "size_t": ("usize", ctypes.c_size_t),
    "double": ("f64", ctypes.c_double),
}


def declared(header: str) -> dict[str, tuple[list[str], str]]:
    """The types of each function's parameters, and of what it returns."""
    code = re.sub(r"/\*.*?\*/", "", header, flags=re.S)
    found = {}
    for result, name, parameters in re.findall(r"^(\w+) (max35101_\w+)\((.*?)\);", code, flags=re.S | re.M):
        # a pointer's star stands before the parameter's name
        types = [re.sub(r"\s*\w+$", "", parameter.strip()) for parameter in parameters.split(",")]
        found[name] = types, result
    return found


def exported(archive: str) -> set[str]:
    """The names of the archive's functions that a caller can reach."""
    listed = subprocess.run(["nm", "--defined-only", "--extern-only", archive], check=True, capture_output=True, text=True)
    return {words[2] for words in map(str.split, listed.stdout.splitlines()) if len(words) == 3 and words[1] == "T"}


def in_rust(kind: str) -> str:
    """A type of C as Rust has it."""
    number = NUMBERS[kind.removeprefix("const ").removesuffix(" *")][0]
    return (("*const " if kind.startswith("const ") else "*mut ") if kind.endswith("*") else "") + number


def in_python(kind: str) -> object:
    """The same for ctypes, which has no const."""
    number = NUMBERS[kind.removeprefix("const ").removesuffix(" *")][1]
    return ctypes.POINTER(number) if kind.endswith("*") else number


def rust(source: str) -> dict[str, tuple[list[str], str]]:
    """The same of the functions that Rust declares."""
    found = {}
    for name, parameters, result in re.findall(r"pub fn (max35101_\w+)\((.*?)\) -> (\w+);", source, flags=re.S):
        found[name] = [parameter.split(":")[1].strip() for parameter in parameters.split(",") if parameter.strip()], result
    return found


def differences(header: str, archive: str) -> list[str]:
    """What is not as the header says."""
    functions = declared(Path(header).read_text())
    found = [f"{name}: declared, or exported, and not both" for name in sorted(set(functions) ^ exported(archive))]
    for name, (types, result) in rust((HERE / "rust/src/ffi.rs").read_text()).items():
        if name not in functions or ([*map(in_rust, functions[name][0])], in_rust(functions[name][1])) != (types, result):
            found.append(f"{name}: not as in rust/src/ffi.rs")
    for name, (types, result) in functions.items():
        function = getattr(_library, name.removeprefix("max35101_"), None)
        if function and ([*map(in_python, types)], in_python(result)) != ([*function.argtypes], function.restype):
            found.append(f"{name}: not as in python/max35101/_library.py")
    return found


def main(header: str, archive: str) -> int:
    """0 where all agree."""
    found = differences(header, archive)
    print(*found, f"{len(declared(Path(header).read_text()))} functions declared, {len(found)} differ", sep="\n")
    return 1 if found else 0


if __name__ == "__main__":
    sys.exit(main(*sys.argv[1:]))

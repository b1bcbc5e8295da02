"""The C code of the BLAKE3 project, where it is installed (Debian: librust-blake3-dev)."""

from pathlib import Path

REGISTRY = Path("/usr/share/cargo/registry")
LEVELS = ("sse2", "sse41", "avx2", "avx512")


def original_code(named=None):
    """The folder that was named, or that of the Debian package, or None if the code is not there."""
    found = [Path(named)] if named else sorted(REGISTRY.glob("blake3-*/c"))
    return next((folder for folder in found if (folder / "blake3.c").exists()), None)


def original_parts(code):
    """The files of a folder that make the library, those in assembly among them."""
    parts = [f"{part}.c" for part in ("", "_portable", "_dispatch")] + [f"_{level}_x86-64_unix.S" for level in LEVELS]
    return [code / f"blake3{part}" for part in parts]

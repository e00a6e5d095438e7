"""What pyproject.toml cannot name, since it is outside this folder: version and reference."""

from pathlib import Path

from setuptools import setup

TOP = Path(__file__).resolve().parent.parent

setup(
    version=(TOP / "VERSION").read_text(encoding="utf-8").strip(),
    package_dir={"lazbendix": "lazbendix", "lazbendix.reference": "../reference"},
)

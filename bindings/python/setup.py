"""What pyproject.toml can't say. The engine's library comes from the checkout around this folder, where bindings/build makes it unless it is built;
a source archive contains it. With the library the wheel has its platform's tag, for any Python 3.

NOBYALUK_LIB_DIR names an archive proved elsewhere, NOBYALUK_ROOT a checkout elsewhere.
"""
import os
import shutil
import subprocess
from pathlib import Path

from setuptools import Distribution, setup
from setuptools.command.build_py import build_py
from setuptools.command.sdist import sdist

try:
    from setuptools.command.bdist_wheel import bdist_wheel
except ImportError:  # before setuptools 70
    from wheel.bdist_wheel import bdist_wheel

HERE = Path(__file__).resolve().parent
ROOT = Path(os.environ.get("NOBYALUK_ROOT") or HERE.parent.parent)
LIBRARY = "libnobyaluk.so"


def add(package):
    """Puts the library into a package's folder, unless it came with a source archive."""
    if (HERE / "nobyaluk" / LIBRARY).exists():
        return
    if not (ROOT / "bindings/build").exists():
        raise SystemExit("nobyaluk: not in its repository: set NOBYALUK_ROOT to a checkout")
    subprocess.run([ROOT / "bindings/build", "--unless-built"], check=True)
    shutil.copyfile(ROOT / "target/bindings" / LIBRARY, package / LIBRARY)


class Package(build_py):
    def run(self):
        shutil.rmtree(self.build_lib, ignore_errors=True)  # no module of an earlier build
        super().run()
        add(Path(self.build_lib, "nobyaluk"))


class Source(sdist):
    def make_release_tree(self, base_dir, files):
        super().make_release_tree(base_dir, files)
        add(Path(base_dir, "nobyaluk"))


class Platform(Distribution):
    def has_ext_modules(self):
        return True


class Wheel(bdist_wheel):
    def get_tag(self):
        return "py3", "none", super().get_tag()[2]


setup(distclass=Platform, cmdclass={"build_py": Package, "sdist": Source, "bdist_wheel": Wheel})

"""Links the archive into the shared object that the module loads, and tags the wheel for this platform."""
import os
import runpy

from setuptools import setup
from setuptools.command.build_py import build_py

try:
    from setuptools.command.bdist_wheel import bdist_wheel
except ImportError:
    from wheel.bdist_wheel import bdist_wheel

HERE = os.path.dirname(os.path.abspath(__file__))


class Linked(build_py):
    """The module with the shared object beside it."""

    def run(self):
        super().run()
        link = runpy.run_path(f"{HERE}/link.py")["link"]
        link(f"{HERE}/libtera.a", f"{HERE}/tera.h", os.path.join(self.build_lib, "tera", "libtera.so"))


class OfPlatform(bdist_wheel):
    """A wheel of any Python 3 on one platform."""

    def finalize_options(self):
        super().finalize_options()
        self.root_is_pure = False

    def get_tag(self):
        return "py3", "none", super().get_tag()[2]


setup(cmdclass={"build_py": Linked, "bdist_wheel": OfPlatform})

"""For tools/package: the wheel is of no version of Python, and of this machine's kind, since the C
library is in it. pyproject.toml has the rest."""
import os

from setuptools import Distribution, setup
from wheel.bdist_wheel import bdist_wheel

HERE = os.path.dirname(os.path.abspath(__file__))


class Module(Distribution):
    """What has a library lies where a machine's own modules do."""

    def has_ext_modules(self):
        return os.path.exists(os.path.join(HERE, "lapyrei", "liblapyrei.so.1"))


class Wheel(bdist_wheel):
    """A wheel whose name says what it is for."""

    def get_tag(self):
        return "py3", "none", super().get_tag()[2]


setup(distclass=Module, cmdclass={"bdist_wheel": Wheel})

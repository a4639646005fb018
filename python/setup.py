"""The wheel of the module ginlarch, with libginlarch.so in it. scripts/dist.sh makes it."""
import os

from setuptools import Distribution, setup
from wheel.bdist_wheel import bdist_wheel


class WithLibrary(Distribution):
    """It holds a library of one kind of machine."""

    def has_ext_modules(self):
        return True


class Wheel(bdist_wheel):
    """It is of no one Python: the library is called by ctypes."""

    def get_tag(self):
        return "py3", "none", "linux_x86_64"


setup(
    name="ginlarch",
    version=os.environ["VERSION"],
    description="The proved core of a Git repository",
    packages=["ginlarch"],
    package_data={"ginlarch": ["libginlarch.so"]},
    python_requires=">=3.7",
    distclass=WithLibrary,
    cmdclass={"bdist_wheel": Wheel},
)

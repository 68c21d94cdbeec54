"""The wheel of the package rstore, with librstore.so.0 in it: package/build.sh calls this in a folder of its own."""

import os

from setuptools import Distribution, setup
from wheel.bdist_wheel import bdist_wheel


class Binary(Distribution):
    def has_ext_modules(self) -> bool:
        return True


class ForEachPython(bdist_wheel):
    """The library is called by ctypes, so one wheel serves all versions of Python."""

    def get_tag(self) -> "tuple[str, str, str]":
        return "py3", "none", os.environ["WHEEL_PLATFORM"]


setup(
    name="rstore",
    version=os.environ["WHEEL_VERSION"],
    description="A verified R*-tree spatial store in one file",
    python_requires=">=3.8",
    packages=["rstore"],
    py_modules=["rstore_rtree"],
    package_data={"rstore": ["py.typed", "librstore.so.0", "proved.txt"]},
    distclass=Binary,
    cmdclass={"bdist_wheel": ForEachPython},
)

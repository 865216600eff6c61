"""A wheel that carries the shared library beside the package, for this machine and any Python 3; pyproject.toml has all else.

  ./yelmuzard wheel [FOLDER]      makes it, with what Debian's python3-setuptools and python3-wheel have and no network

The library is copied from the file that YELMUZARD_LIBRARY names.
"""
import os
import shutil

from setuptools import Distribution, setup
from setuptools.command.build_py import build_py
from wheel.bdist_wheel import bdist_wheel


class WithLibrary(build_py):
    def run(self):
        super().run()
        library = os.environ.get("YELMUZARD_LIBRARY")
        if not library:
            raise SystemExit("setup.py: YELMUZARD_LIBRARY names no shared library; ./yelmuzard wheel does it all")
        shutil.copyfile(library, os.path.join(self.build_lib, "yelmuzard", "libvoronoi.so"))


class ForThisMachine(bdist_wheel):
    def get_tag(self):
        return ("py3", "none", super().get_tag()[2])  # any Python 3 can load it: ctypes alone is used


class OneProcessor(Distribution):
    def has_ext_modules(self):
        return True  # it has code for one processor


setup(cmdclass={"build_py": WithLibrary, "bdist_wheel": ForThisMachine}, distclass=OneProcessor)

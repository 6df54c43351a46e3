"""Builds the library beside the package: `make` in bindings/c does it, or BIRCHAGAIN_LIBRARY names one that is built."""

import os
import shutil
import subprocess

from setuptools import Distribution, setup
from setuptools.command.build_py import build_py

HERE = os.path.dirname(os.path.abspath(__file__))
NAME = "libbirchagain.so"


class BuildWithLibrary(build_py):
    """Puts the library beside the package."""

    def run(self):
        super().run()
        built = os.environ.get("BIRCHAGAIN_LIBRARY")
        if not built:
            folder = os.path.join(HERE, "..", "c")
            subprocess.run(["make", "-C", folder, f"out/{NAME}"], check=True)
            built = os.path.join(folder, "out", NAME)
        shutil.copy(built, os.path.join(self.build_lib, "birchagain", NAME))


class WithMachineCode(Distribution):
    """So a wheel names the machine that it is for."""

    def has_ext_modules(self):
        return True


setup(cmdclass={"build_py": BuildWithLibrary}, distclass=WithMachineCode)

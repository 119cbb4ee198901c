"""Programs of Debian that the tests use: installed where they are missing."""

import shutil
import subprocess

TIME_LIMIT = 300  # seconds for one start of apt-get
INSTALL = ("apt-get", "-o", "DPkg::Lock::Timeout=120", "install", "-y")


class Missing(Exception):
    """Something that a part of the tests needs is not there."""


def debian(program, package=None):
    """The path of the program, from its Debian package if it is not there yet."""
    package = package or program
    for command in ((*INSTALL, package), ("apt-get", "update"), (*INSTALL, package)):
        if shutil.which(program):
            break
        try:
            subprocess.run(command, capture_output=True, timeout=TIME_LIMIT, check=False)
        except (OSError, subprocess.TimeoutExpired):
            pass
    path = shutil.which(program)
    if path is None:
        raise Missing(f"{program} is not installed and could not be (apt-get install {package})")
    return path

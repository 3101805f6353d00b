"""Small file systems."""
import contextlib
import os
import shutil
import subprocess

from program import Skip


@contextlib.contextmanager
def small_disk(folder, size):
    """A file system in memory of so many kilobytes; without one the test is skipped."""
    place = os.path.join(folder, "disk")
    os.makedirs(place, exist_ok=True)
    words = ["mount", "-t", "tmpfs", "-o", f"size={size}k", "pciids-test", place]
    has_mount = shutil.which("mount") is not None
    had = has_mount and subprocess.run(words, stderr=subprocess.DEVNULL).returncode == 0
    if not had:
        raise Skip("no tmpfs can be mounted here")
    try:
        yield place
    finally:
        subprocess.run(["umount", place], check=True)


def mounted_anew(place, how):
    subprocess.run(["mount", "-o", f"remount,{how}", place], check=True)

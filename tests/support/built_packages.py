"""The Debian packages of the program under test, built once for all parts of a run."""
import fcntl
import functools
import os
import shutil
import subprocess
import tempfile

import program
from program import TOP, WHOLE

BUILD = os.path.join(TOP, "deploy", "build-deb")
_built = {}


def build(folder, **more):
    """Runs build-deb. Returns what it printed and its status."""
    environment = dict(os.environ, **more)
    ran = subprocess.run(
        [BUILD, WHOLE, folder], env=environment, capture_output=True, text=True, timeout=300
    )
    return ran.stdout + ran.stderr, ran.returncode


def packages():
    """The folder that has both packages. They are built when the first part asks, also where each
    part is a process of its own: their folder goes by the process that began them all."""
    program.need("debhelper", "dpkg-dev")
    if not os.access(WHOLE, os.X_OK):
        raise program.Skip("the program is not built")
    folder = os.path.join(tempfile.gettempdir(), f"pciids-packages-{os.getppid()}")
    while "packages" not in _built:
        lock = open(f"{folder}.lock", "w", encoding="utf-8")
        # Many may use them, and one alone builds or removes them.
        fcntl.flock(lock, fcntl.LOCK_SH)
        if not os.path.exists(folder):
            fcntl.flock(lock, fcntl.LOCK_EX)
            if is_in_place(lock) and not os.path.exists(folder):
                built_beside(folder)
            fcntl.flock(lock, fcntl.LOCK_SH)
        if is_in_place(lock) and os.path.exists(folder):
            _built["packages"] = folder
            program.AT_END.append(functools.partial(left, folder, lock))
        else:
            lock.close()
    return folder


def is_in_place(file):
    """Whether an open file still has its name."""
    return os.path.exists(file.name) and os.path.samestat(os.fstat(file.fileno()),
                                                          os.stat(file.name))


def built_beside(folder):
    """Builds both packages, and puts the folder in its place when they are there."""
    beside = tempfile.mkdtemp()
    try:
        os.chmod(beside, 0o755)
        told, status = build(beside)
        if status != 0:
            raise RuntimeError(f"build-deb: {told}")
        shutil.move(beside, folder)
    finally:
        shutil.rmtree(beside, ignore_errors=True)


def left(folder, lock):
    """Removes the packages, unless another part holds them."""
    try:
        fcntl.flock(lock, fcntl.LOCK_EX | fcntl.LOCK_NB)
    except BlockingIOError:
        return
    shutil.rmtree(folder, ignore_errors=True)
    os.remove(lock.name)


def package(name):
    """The file of a package."""
    folder = packages()
    found = [it for it in os.listdir(folder) if it.startswith(name + "_") and it.endswith(".deb")]
    return os.path.join(folder, found[0])


def repacked(name, version, folder):
    """The same package with another version and one more line in the site's nginx configuration."""
    tree = os.path.join(folder, name)
    subprocess.run(["dpkg-deb", "-R", package(name), tree], check=True)
    control = os.path.join(tree, "DEBIAN", "control")
    with open(control, encoding="utf-8") as file:
        text = file.read()
    was = next(it for it in text.splitlines() if it.startswith("Version: "))[9:]
    with open(control, "w", encoding="utf-8") as file:
        file.write(text.replace(was, version))
    limits = os.path.join(tree, "etc", "pciids", "nginx", "pciids-limits.conf")
    if os.path.exists(limits):
        with open(limits, "a", encoding="utf-8") as file:
            file.write("# Another version.\n")
    path = os.path.join(folder, f"{name}.deb")
    words = ["dpkg-deb", "-Zgzip", "-z1", "-b", tree, path]
    subprocess.run(words, stdout=subprocess.DEVNULL, check=True)
    return path

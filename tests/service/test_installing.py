"""The packages in a folder, by `dpkg --root`, which needs no machine of its own: install, upgrade,
removal and purge; who owns what, what is enabled, what stays and what goes."""
import os
import subprocess
import tempfile

import built_packages
import program

NAMES = ("pciids", "pciids-registry")
ENABLED = {
    "multi-user.target.wants/pciids.service",
    "sockets.target.wants/pciids-http.socket",
    "sockets.target.wants/pciids-join.socket",
    "timers.target.wants/pciids-publish.timer",
    "timers.target.wants/pciids-backup.timer",
}


class Folder:
    """A root of its own for dpkg. The scripts of the packages run outside and get its path."""

    def __init__(self, folder):
        self.folder = folder
        for it in ("var/lib/dpkg/info", "var/lib/dpkg/updates", "var/log", "etc/nginx/conf.d"):
            os.makedirs(self.path(it))
        for it in ("status", "available"):
            self.write(f"var/lib/dpkg/{it}", "")

    def path(self, name):
        return os.path.join(self.folder, name)

    def write(self, name, text):
        os.makedirs(os.path.dirname(self.path(name)), exist_ok=True)
        with open(self.path(name), "w", encoding="utf-8") as file:
            file.write(text)

    def read(self, name):
        with open(self.path(name), encoding="utf-8") as file:
            return file.read()

    def has(self, *names):
        """Those of the names that are there."""
        return [it for it in names if os.path.lexists(self.path(it))]

    def dpkg(self, *words):
        """The status, and what was said if that is not 0."""
        # The folder has none of the packages that these two depend on.
        how = [f"--root={self.folder}", "--force-script-chrootless", "--force-depends"]
        ran = subprocess.run(
            ["dpkg", *how, *words],
            stdin=subprocess.DEVNULL,
            stdout=subprocess.PIPE,
            stderr=subprocess.STDOUT,
            timeout=120,
        )
        return ran.returncode, ran.stdout.decode() if ran.returncode else ""

    def files(self):
        """All that the packages brought, by what dpkg lists."""
        listed = subprocess.run(
            ["dpkg", f"--root={self.folder}", "-L", *NAMES], stdout=subprocess.PIPE, text=True
        )
        names = [it.lstrip("/") for it in listed.stdout.splitlines() if it.startswith("/")]
        return [it for it in names if it and not os.path.isdir(self.path(it))]

    def user(self, name):
        lines = [it.split(":") for it in self.read("etc/passwd").splitlines()]
        return next((int(it[2]), int(it[3]), it[6]) for it in lines if it[0] == name)

    def owned(self, name):
        """The mode, the user and the group of a file."""
        found = os.stat(self.path(name))
        return oct(found.st_mode & 0o7777), found.st_uid, found.st_gid


def installed(cases, root):
    packages = [built_packages.package(it) for it in NAMES]
    cases.equal("installing: into a folder", root.dpkg("-i", *packages), (0, ""))
    files = root.files()
    missing = [it for it in files if not root.has(it)]
    cases.equal(f"installing: {len(files)} files are there", (len(files) > 60, missing), (True, []))
    user, group, shell = root.user("pciids")
    cases.equal("installing: nobody logs in as pciids", shell, "/usr/sbin/nologin")
    web = root.user("pciids-web")
    cases.equal("installing: nobody logs in as pciids-web", web[2], "/usr/sbin/nologin")
    cases.equal("installing: three users", len({user, web[0], root.user("pciids-join")[0]}), 3)
    joins = root.user("pciids-join")
    cases.equal("installing: nobody logs in as pciids-join", joins[2], "/usr/sbin/nologin")
    follower = root.user("pciids-follow")
    cases.equal("installing: a standby's account has a shell", follower[2], "/bin/sh")
    got = root.owned("var/lib/pciids-journal/segments")
    cases.equal("installing: it reads the journal", got, ("0o2750", user, follower[1]))
    got = root.owned("etc/pciids/accounts/passwords"), root.owned("etc/pciids/accounts")
    want = ("0o640", joins[0], web[1]), ("0o2750", joins[0], web[1])
    cases.equal("installing: the web server reads the passwords", got, want)
    got = root.read("etc/pciids/host.conf"), root.owned("etc/pciids/host.conf")
    want = ("server_name pciids.example.org;", ("0o644", 0, 0))
    cases.equal("installing: the name of the host", (got[0].strip(), got[1]), want)
    got = root.owned("var/backups/pciids")
    cases.equal("installing: the copies are the service's", got, ("0o750", user, group))
    units = root.path("etc/systemd/system")
    found = {os.path.relpath(os.path.join(at, it), units)
             for at, _, names in os.walk(units) for it in names}
    cases.equal("installing: what is enabled", found, ENABLED)


def upgraded(cases, root, folder):
    """Another version, after a file was edited and a name came in."""
    site = root.read("etc/pciids/nginx/pciids-site.conf") + "# Edited.\n"
    root.write("etc/pciids/nginx/pciids-site.conf", site)
    root.write("etc/pciids/accounts/passwords", "anna:x\n")
    root.write("etc/pciids/host.conf", "server_name ids.example.net;\n")
    root.write("var/lib/pciids/registry.db", "a registry")
    newer = [built_packages.repacked(it, "0.1.0+next", folder) for it in NAMES]
    cases.equal("installing: an upgrade", root.dpkg("-i", *newer), (0, ""))
    got = root.read("etc/pciids/nginx/pciids-site.conf") == site
    cases.equal("installing: an edited file stays", got, True)
    last = root.read("etc/pciids/nginx/pciids-limits.conf").splitlines()[-1]
    cases.equal("installing: an unedited one is the new one", last, "# Another version.")
    got = root.read("etc/pciids/accounts/passwords"), root.owned("etc/pciids/accounts/passwords")[0]
    cases.equal("installing: the passwords stay", got, ("anna:x\n", "0o640"))
    got = root.read("etc/pciids/host.conf")
    cases.equal("installing: so does the name of the host", got, "server_name ids.example.net;\n")


def removed(cases, root):
    files = root.files()
    os.symlink("/etc/pciids/nginx/pciids-limits.conf", root.path("etc/nginx/conf.d/pciids.conf"))
    os.symlink("/etc/nginx/other.conf", root.path("etc/nginx/conf.d/other.conf"))
    for it in ("var/lib/pciids-public/pci.ids", "var/log/pciids-web/access.log"):
        root.write(it, "text")
    cases.equal("installing: removal", root.dpkg("-r", "pciids-registry", "pciids"), (0, ""))
    left = [it for it in root.has(*files) if not it.startswith("etc/")]
    cases.equal("installing: nothing of the packages is left", left, [])
    links = root.has("etc/nginx/conf.d/pciids.conf", "etc/nginx/conf.d/other.conf")
    want = ["etc/nginx/conf.d/other.conf"]
    cases.equal("installing: nginx has no link to what may go", links, want)
    kept = ("etc/pciids/nginx/pciids-site.conf", "etc/pciids/accounts/passwords",
            "etc/pciids/host.conf", "var/lib/pciids/registry.db", "var/backups/pciids",
            "var/lib/pciids-public")
    cases.equal("installing: what a removal leaves", root.has(*kept), list(kept))
    cases.equal("installing: purge", root.dpkg("-P", "pciids-registry", "pciids"), (0, ""))
    left = ["etc/pciids/accounts/passwords", "var/lib/pciids/registry.db", "var/backups/pciids"]
    got = root.has(*kept, "var/log/pciids-web", "etc/pciids/nginx", "var/lib/pciids-acme")
    cases.equal("installing: what a purge leaves", got, left)
    enabled = [it for _, _, names in os.walk(root.path("etc/systemd")) for it in names]
    cases.equal("installing: no link of a unit is left", enabled, [])


def test_installing(cases):
    program.need("debhelper", "dpkg-dev", "deb-systemd-helper", "systemd-sysusers")
    if os.geteuid() != 0:
        raise program.Skip("only root can give files to other users")
    with tempfile.TemporaryDirectory() as folder, tempfile.TemporaryDirectory() as other:
        root = Folder(folder)
        installed(cases, root)
        upgraded(cases, root, other)
        removed(cases, root)

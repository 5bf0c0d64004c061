"""A PostgreSQL server of one's own: in a temporary folder, on a socket there and on no port. It is stopped at the end, and the folder goes with it.

PostgreSQL refuses to run as root. As root, its programs run as the user `postgres`, or as `nobody` where there is no such user.
"""
import atexit
import os
import pathlib
import pwd
import shutil
import subprocess
import tempfile

INSTALLED = pathlib.Path("/usr/lib/postgresql")
SETTINGS = "-c listen_addresses= -c fsync=off -c autovacuum=off -c timezone=UTC"


class Missing(Exception):
    """Why there is no server."""


def programs(given=None):
    """The folder of initdb, pg_ctl and psql: the one that is given, or that of the newest version that Debian's packages installed."""
    found = sorted(INSTALLED.glob("*/bin"), key=lambda path: int(path.parent.name))
    if not given and not found:
        raise Missing(f"no server's programs in {INSTALLED}: install the package `postgresql`, or give their folder with --bin")
    folder = pathlib.Path(given or found[-1])
    if not (folder / "initdb").exists():
        raise Missing(f"no initdb in {folder}")
    return folder


def other_user():
    """As whom a server runs that root starts, or nobody else."""
    known = {user.pw_name: user for user in pwd.getpwall()}
    return known.get("postgres", known.get("nobody")) if os.geteuid() == 0 else None


class Cluster:
    """A server of its own, in a folder that goes with it."""

    def __init__(self, folder, name, settings=""):
        self.bin, self.user, self.stopped = folder, other_user(), False
        self.folder = tempfile.mkdtemp(prefix=name)
        atexit.register(self.stop)
        self.own(self.folder)
        self.call("initdb", "-D", f"{self.folder}/data", "-U", "postgres", "-A", "trust", "-E", "UTF8", "--locale=C", "-N")
        self.call("pg_ctl", "-D", f"{self.folder}/data", "-w", "-l", f"{self.folder}/log", "-o", f"-k {self.folder} {SETTINGS} {settings}", "start")

    def own(self, path):
        if self.user:
            os.chown(path, self.user.pw_uid, self.user.pw_gid)

    def words(self, program, *words):
        """The words that run a program of the server, as whom the server runs."""
        user = ["setpriv", f"--reuid={self.user.pw_uid}", f"--regid={self.user.pw_gid}", "--clear-groups", "--"] if self.user else []
        return [*user, self.bin / program, *words]

    def call(self, program, *words, **how):
        subprocess.run(self.words(program, *words), **{"check": True, "stdout": subprocess.DEVNULL, "cwd": self.folder, **how})

    def disk(self):
        """A folder for a tablespace."""
        os.mkdir(f"{self.folder}/disk")
        self.own(f"{self.folder}/disk")
        return f"{self.folder}/disk"

    def psql(self, database, *words):
        """The words that start psql on a database."""
        return self.words("psql", "-h", self.folder, "-U", "postgres", "-d", database, "-X", "-q", "-At", "-v", "VERBOSITY=terse", *words)

    def stop(self):
        if not self.stopped:
            self.stopped = True
            self.call("pg_ctl", "-D", f"{self.folder}/data", "-m", "immediate", "stop", check=False, cwd="/")
            shutil.rmtree(self.folder)

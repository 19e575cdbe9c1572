"""PostgreSQL servers that tests start in a folder."""
import os
import pwd
import shutil
import subprocess
import tempfile
import time

from packages import postgresql

BIN = postgresql()


def other_user():
    """Who runs PostgreSQL, which does not run as root: a user and a group, or None for oneself."""
    if os.geteuid():
        return None
    names = {one.pw_name for one in pwd.getpwall()}
    found = pwd.getpwnam("postgres" if "postgres" in names else "nobody")
    return found.pw_uid, found.pw_gid


class Servers:
    """PostgreSQL servers in a folder, by their names, each on a socket of its own."""

    def __init__(self, *names, settings="log_statement = all"):
        self.names, first = names, names[0]
        self.room, self.user = tempfile.mkdtemp(prefix="cigrelk-sql-"), other_user()
        os.chmod(self.room, 0o755)
        for name in names:
            os.mkdir(f"{self.room}/{name}")
            if self.user:
                os.chown(f"{self.room}/{name}", *self.user)
        self.run("initdb", first, "-A", "trust", "-U", "shop", "-N", "-E", "UTF8", "--locale=C")
        with open(f"{self.room}/{first}/data/postgresql.conf", "a") as file:
            file.write(f"fsync = off\nlisten_addresses = ''\nmax_connections = 20\nshared_buffers = 16MB\n{settings}\n")
        for name in names[1:]:
            subprocess.run(["cp", "-a", f"{self.room}/{first}/data", f"{self.room}/{name}"], check=True)
        for name in names:
            self.start(name, "-W")
        for name in names:
            self.wait(name)

    def run(self, program, name, *words):
        as_user = ["setpriv", f"--reuid={self.user[0]}", f"--regid={self.user[1]}", "--clear-groups", "env", "HOME=/tmp"] if self.user else []
        subprocess.run([*as_user, f"{BIN}/{program}", "-D", f"{self.room}/{name}/data", *words], check=True, stdout=subprocess.DEVNULL, cwd="/")

    def start(self, name, waits="-w"):
        self.run("pg_ctl", name, waits, "-o", f"-k {self.room}/{name}", "-l", f"{self.room}/{name}/log", "start")

    def stop(self, name, mode="fast"):
        self.run("pg_ctl", name, "-w", "-m", mode, "stop")

    def wait(self, name):
        for _ in range(600):
            if subprocess.run([f"{BIN}/pg_isready", "-q", "-h", f"{self.room}/{name}"]).returncode == 0:
                return
            time.sleep(0.05)
        raise SystemExit(f"the PostgreSQL {name} does not start")

    def address(self, name, database="postgres"):
        return f"postgresql:///{database}?host={self.room}/{name}&user=shop"

    def sql(self, address, text):
        """The lines that statements give."""
        settings = {**os.environ, "PGCLIENTENCODING": "UTF8"}
        done = subprocess.run(["psql", "-X", "-q", "-t", "-A", "-v", "ON_ERROR_STOP=1", "-d", address, "-c", text], check=True, stdout=subprocess.PIPE, env=settings)
        return done.stdout.decode().replace("\\\\", "\\").split("\n")[:-1]

    def link(self, address, names):
        """Makes servers known to a database by postgres_fdw."""
        self.sql(address, "CREATE EXTENSION postgres_fdw")
        for name in names:
            self.sql(address, f"CREATE SERVER {name} FOREIGN DATA WRAPPER postgres_fdw OPTIONS (host '{self.room}/{name}', dbname 'postgres', batch_size '500', fetch_size '10000'); "
                              f"CREATE USER MAPPING FOR shop SERVER {name} OPTIONS (user 'shop')")

    def spread(self, address, names, table, columns, by, key=""):
        """Makes a table in a database whose rows are spread over linked servers by a hash of a column."""
        self.sql(address, f"CREATE TABLE {table} ({columns}) PARTITION BY HASH ({by})")
        for number, name in enumerate(names):
            self.sql(self.address(name), f"CREATE TABLE {table} ({columns}{key})")
            self.sql(address, f"CREATE FOREIGN TABLE {table}_{number} PARTITION OF {table} FOR VALUES WITH (MODULUS {len(names)}, REMAINDER {number}) SERVER {name} OPTIONS (table_name '{table}')")

    def close(self):
        for name in self.names:
            self.stop(name, "immediate")
        shutil.rmtree(self.room)

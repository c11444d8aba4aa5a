"""Clients of another host, by ssh and by TLS, and users of the host itself: what they may, and who gets in by no way."""
import os
import re
import signal
import subprocess
import sys

from daemon import SDD, SOON, WAIT, until
from held import table
from namespaces import CLIENT, HOST, NOBODY, RELAY_GROUP, Hosts, missing

NAMES = (table("www", "append-only", jobs='["100-199"]', bytes_a_day=2_000_000) + table("desk", "client")
         + '[name.admin]\nrole = "operator"\n')


def run(checks, folder, built=SDD):
    if lacks := missing():
        print(f"not run: the two hosts, for want of {lacks}")
        return
    folder.chmod(0o755)
    with Hosts(folder, built) as hosts:
        hosts.serve(NAMES)
        Ways(checks, hosts).run()


def times(form, log):
    """How often a log has a line with that form."""
    return len(re.findall(form, log.read_text()))


class Ways:
    """Backups and restores by both ways, and who gets in by none."""

    def __init__(self, checks, hosts):
        self.checks, self.hosts = checks, hosts

    def run(self):
        self.operator()
        self.backups()
        self.others()
        self.foreign()
        self.limit()
        self.local()
        self.vanishes()
        self.checks.group = "hosts"

    def same(self, what, way, words, wanted, status=0, **options):
        said, came = self.hosts.say(way, *words, **options)
        self.checks.check(what, (wanted in said if wanted else True) and came == status, said, came)

    def operator(self):
        self.checks.group = "operator"
        admin = self.hosts.rsh("admin")
        self.same("label", admin, ["console", "label", "1", "Vol-0001", "Default", "File"], "ok labelled")
        self.same("label one for another pool", admin, ["console", "label", "1", "Vol-0002", "Other", "File"], "ok labelled")
        self.same("status", admin, ["console", "status"], "volume Vol-0001 Default File append")

    def backups(self):
        """A client's data go in and come back, the same, by ssh and by TLS."""
        ways = {"ssh": self.hosts.rsh("desk"), "tls": self.hosts.by_tls(self.hosts.tls / "desk.pem")}
        for number, (name, way) in enumerate(ways.items()):
            self.checks.group = f"by {name}"
            data, spans, back = (self.hosts.folder / f"{name}.{kind}" for kind in ("data", "spans", "back"))
            data.write_bytes(os.urandom(1_500_001 + number))
            self.same("append", way, ["append", data, spans], "")
            for other, by in ways.items():
                self.same(f"read by {other}", by, ["read", spans, back], "")
                self.checks.check("the same bytes", back.read_bytes() == data.read_bytes())
            self.same("its sessions", way, ["console", "status"], f"session {number + 1} closed")
            said, _ = self.hosts.say(way, "console", "status")
            self.checks.check("no drive and no volume", "drive" not in said and "volume" not in said, said)
            self.same("unmount", way, ["console", "unmount", "1"], "3933 In use", 1)
            other = spans.with_suffix(".other")
            self.same("another pool", way, ["append", data, other], "3933 In use", 1, pool="Other")
            self.same("another job", way, ["append", data, other], "3933 In use", 1, job=100)

    def others(self):
        """An append-only name appends, and can do nothing with it."""
        www, spans = self.hosts.by_tls(self.hosts.tls / "www.pem"), self.hosts.folder / "www.spans"
        self.checks.group = "append-only"
        data = self.hosts.folder / "www.data"
        data.write_bytes(os.urandom(300_000))
        self.same("append", www, ["append", data, spans], "", job=100)
        for way in (www, self.hosts.rsh("www")):
            self.same("read", way, ["read", spans, self.hosts.folder / "x"], "3933 In use", 1)
            for line in ("label 1 Vol-9 Default File", "unmount 1", "mount 1 Vol-0002", "cancel 1", "jobmedia 3",
                         "purge 1 Vol-0001", "retire 1"):
                self.same(line, way, ["console", *line.split()], "3933 In use", 1)
            self.same("status", way, ["console", "status"], "session 3 closed 5")
        self.checks.group = "names"
        self.same("another's session", self.hosts.rsh("desk"), ["read", spans, self.hosts.folder / "x"], "3933 In use", 1)
        self.same("an operator reads it", self.hosts.rsh("admin"), ["read", spans, self.hosts.folder / "x"], "")
        self.same("nothing but the relay", self.hosts.rsh("desk", "-o RequestTTY=no"), ["console", "unmount", "1"], "3933", 1)
        command = self.hosts.client.command("sh", "-c", self.hosts.rsh("desk")[1] + " cat /etc/shadow </dev/null")
        run = subprocess.run(command, capture_output=True, timeout=WAIT)
        self.checks.check("a command by ssh isn't run", run.stdout == b"", run.stdout[:80])

    def foreign(self):
        self.checks.group = "foreign"
        spans, before = self.hosts.folder / "ssh.spans", self.talks()
        self.same("a foreign key", self.hosts.rsh("foreign_key"), ["read", spans, self.hosts.folder / "x"], "", 3)
        status = ["console", "status"]
        for what, file in (("a foreign certificate", self.hosts.folder / "foreign" / "www.pem"), ("an unknown host", self.only()),
                           ("a host's certificate as a client's", self.hostly())):
            self.same(what, self.hosts.by_tls(file), status, "", 3)
        self.same("a name that is gone", self.hosts.by_tls(self.hosts.tls / "gone.pem"), status, "3933 In use", 1)
        code = ("import socket, ssl; c = ssl.SSLContext(ssl.PROTOCOL_TLS_CLIENT); "
                f"c.load_verify_locations('{self.hosts.tls}/authority.pem'); "
                f"s = c.wrap_socket(socket.create_connection(('{HOST}', 9104), 20), server_hostname='{HOST}'); "
                # What it would say could come after the refusal, whose text is lost then.
                "print(s.recv(9))")
        run = self.python(self.hosts.client, code)
        said = run.stderr.lower().replace("_", " ")
        self.checks.check("no certificate", run.returncode != 0 and "alert certificate required" in said, run.stdout, said[-200:])
        self.checks.same("the daemon's talks", self.talks(), before)

    def python(self, where, code, *before):
        """What some lines of Python come to on a host."""
        return subprocess.run(where.command(*before, sys.executable, "-c", code), capture_output=True, text=True, timeout=WAIT)

    def talks(self):
        """How many the daemon has begun."""
        return (self.hosts.folder / "sdd.log").read_text().count(" begins")

    def hostly(self):
        """The host's certificate with the authority, as a client would have one."""
        file = self.hosts.folder / "hostly.pem"
        file.write_text((self.hosts.tls / "host.pem").read_text() + (self.hosts.tls / "authority.pem").read_text())
        return file

    def only(self):
        """A right certificate whose authority is another: the client doesn't trust the host."""
        own = (self.hosts.tls / "desk.pem").read_text()
        head = own[:own.rindex("-----BEGIN CERTIFICATE")]
        file = self.hosts.folder / "foreign" / "only.pem"
        file.write_text(head + (self.hosts.folder / "foreign" / "authority.pem").read_text())
        return file

    def limit(self):
        """The bytes of a day, in the middle of a session."""
        self.checks.group = "limit"
        data, spans = self.hosts.folder / "much", self.hosts.folder / "much.spans"
        data.write_bytes(bytes(3_000_000))
        self.same("refused", self.hosts.rsh("www"), ["append", data, spans], "3933 In use", 1, job=101)
        self.checks.check("no spans", not spans.exists())
        said, _ = self.hosts.say(self.hosts.rsh("admin"), "console", "status")
        self.checks.check("cancelled", any(" cancelled " in line for line in said.splitlines()), said)

    def local(self):
        """On the host the socket is the group's, and the port nobody's."""
        self.checks.group = "local"
        for user, groups, wanted in ((0, [], "ok status"), (NOBODY, [], "PermissionError"), (NOBODY, [RELAY_GROUP], "ok status")):
            code = (f"import os, socket; os.setgroups({groups}); os.setgid({NOBODY if user else 0}); os.setuid({user})\n"
                    "s = socket.socket(socket.AF_UNIX)\ns.connect('/run/sdd-clients/socket')\n"
                    "s.sendall(b'\\0\\0\\0\\x0econsole status'); d = b''\n"
                    "while b'ok status' not in d: d += s.recv(9999)\nprint('ok status')")
            run = self.python(self.hosts.host, code)
            self.checks.check(f"user {user} of groups {groups}", wanted in run.stdout + run.stderr, run.stdout, run.stderr)
        for where, name in ((self.hosts.host, "the host"), (self.hosts.client, "the client's host")):
            code = f"import socket; socket.create_connection(('127.0.0.1' if {where is self.hosts.host} else '{HOST}', 9103), 3)"
            run = self.python(where, code)
            self.checks.check(f"no port on {name}", "Refused" in run.stderr or "timed out" in run.stderr, run.stderr)
        # The client's own way: by the socket, where there is one.
        self.same("the socket is tried first", [], ["console", "status"], "ok status", where=self.hosts.host)
        user = ["setpriv", f"--reuid={NOBODY}", f"--regid={NOBODY}", "--clear-groups"]
        command = self.hosts.host.command(*user, "/usr/bin/python3", CLIENT, "console", "status")
        run = subprocess.run(command, capture_output=True, text=True, timeout=WAIT)
        self.checks.check("another user is told", run.returncode == 3 and "its group may" in run.stderr, run.stderr)

    def vanishes(self):
        """A client that is killed in a job ends its session and no other's."""
        self.checks.group = "vanishes"
        data = self.hosts.folder / "slow"
        os.mkfifo(data)
        command = [sys.executable, CLIENT, *self.hosts.rsh("desk"), "--job", "7", "append", data, self.hosts.folder / "slow.spans"]
        process = subprocess.Popen(self.hosts.client.command(*command), stderr=subprocess.DEVNULL, start_new_session=True)
        with open(data, "wb", buffering=0) as file:
            file.write(bytes(200_000))
            log = self.hosts.folder / "sdd.log"
            is_open = until(lambda: times("opened for job", log) > times("(closed|cancelled) with", log))
            self.checks.check("its session is open", is_open, log.read_text())
            again = ["append", self.hosts.folder / "ssh.data", self.hosts.folder / "again.spans"]
            self.same("another goes on", self.hosts.by_tls(self.hosts.tls / "desk.pem"), again, "")
            before = log.read_text().count(" cancelled with")
            os.killpg(process.pid, signal.SIGKILL)
            process.wait()
            is_over = until(lambda: log.read_text().count(" cancelled with") > before, SOON)
            self.checks.check("its session is cancelled", is_over, log.read_text())
        self.checks.check("no spans", not (self.hosts.folder / "slow.spans").exists())

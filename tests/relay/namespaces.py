"""Two hosts and the daemon's own network, as namespaces: a host with sshd, stunnel, systemd's socket proxy and the relay as
a user of its own, by the files of examples/ and examples/remote; and a client's host, which reaches nothing else."""
import contextlib
import os
import pathlib
import shutil
import signal
import subprocess
import sys

from daemon import ROOT, SDD, WAIT, drive, until
from held import RELAY

EXAMPLES, REMOTE = ROOT / "examples", ROOT / "examples" / "remote"
CLIENT = ROOT / "client" / "sdd-client"
HOST, OTHER = "10.84.0.1", "10.84.0.2"
SOCKET = "/run/sdd-clients/socket"
PROXY = pathlib.Path("/usr/lib/systemd/systemd-socket-proxyd")
PROGRAMS = ("/usr/sbin/sshd", "/usr/bin/stunnel4", "/usr/bin/ssh", "/usr/bin/openssl", "/usr/sbin/ip", "/usr/bin/nsenter",
            "/usr/bin/setpriv", str(PROXY))
# Nothing outlives a test that is killed.
DIES_WITH_US = ["setpriv", "--pdeathsig", "KILL"]
RELAY_USER, RELAY_GROUP = 64001, 64002
# The daemon's user in the test, and one that is in no group.
DAEMON_USER, NOBODY = 64003, 65534


def missing():
    """What this part needs and isn't there, in words, or an empty text."""
    if os.geteuid():
        return "root"
    absent = [name for name in PROGRAMS if not shutil.which(name.rpartition("/")[2], path="/usr/sbin:/usr/bin:/sbin:/bin")
              and not pathlib.Path(name).exists()]
    if absent:
        return f"{', '.join(absent)} (tools/packages)"
    return "" if subprocess.run(["unshare", "--net", "--mount", "true"]).returncode == 0 else "namespaces"


class Namespace:
    """A network, and maybe a view of the file system, of its own, as long as a process in it lives."""

    def __init__(self, *kinds):
        self.kinds = [f"--{kind}" for kind in kinds]
        self.process = subprocess.Popen([*DIES_WITH_US, "unshare", *self.kinds, "sleep", "infinity"])
        mine = os.readlink("/proc/self/ns/net")
        until(lambda: os.readlink(f"/proc/{self.process.pid}/ns/net") != mine and
              pathlib.Path(f"/proc/{self.process.pid}/comm").read_text() == "sleep\n")
        self.call("ip", "link", "set", "lo", "up")

    def command(self, *words):
        return ["nsenter", "-t", str(self.process.pid), *self.kinds, "--", *map(str, words)]

    def call(self, *words):
        subprocess.run(self.command(*words), check=True, timeout=WAIT)

    def end(self):
        self.process.kill()
        self.process.wait()


class Hosts:
    """The hosts with all that runs on them. `folder` is readable for all."""

    def __init__(self, folder, program=SDD):
        self.folder, self.program, self.running = folder, program, []
        self.host, self.client, self.private = Namespace("net", "mount"), Namespace("net"), Namespace("net")
        self.run_folder = pathlib.Path("/run/sdd-relay-test")
        self.link()
        self.accounts()
        self.keys()

    def __enter__(self):
        return self

    def __exit__(self, *_):
        for process in reversed(self.running):
            with contextlib.suppress(ProcessLookupError):
                os.killpg(process.pid, signal.SIGKILL)
            process.wait()
        for one in (self.host, self.client, self.private):
            one.end()

    def link(self):
        """A cable between the two hosts."""
        self.host.call("ip", "link", "add", "near", "type", "veth", "peer", "name", "far", "netns", str(self.client.process.pid))
        for one, name, address in ((self.host, "near", HOST), (self.client, "far", OTHER)):
            one.call("ip", "address", "add", f"{address}/24", "dev", name)
            one.call("ip", "link", "set", name, "up")

    def accounts(self):
        """The host's /run, and its users and groups besides those of this machine."""
        self.host.call("mount", "-t", "tmpfs", "-o", "mode=0755", "none", "/run")
        self.host.call("mkdir", "-p", "/run/sshd", "/run/sdd-clients", self.run_folder)
        lines = {
            "passwd": f"sdd-relay:x:{RELAY_USER}:{RELAY_USER}::{self.run_folder}:/bin/sh\n",
            "group": f"sdd-relay:x:{RELAY_USER}:\nsdd-clients:x:{RELAY_GROUP}:sdd-relay\n",
            "shadow": "sdd-relay:*:19000:0:99999:7:::\n"}
        for name, more in lines.items():
            mine = self.folder / name
            mine.write_text(pathlib.Path(f"/etc/{name}").read_text() + more)
            mine.chmod(0o600 if name == "shadow" else 0o644)
            self.host.call("mount", "--bind", mine, f"/etc/{name}")
        self.host.call("mkdir", "-m", "0700", f"{self.run_folder}/state")
        self.host.call("chown", f"{RELAY_USER}:{RELAY_GROUP}", f"{self.run_folder}/state")

    def keys(self):
        """Keys and certificates: the host's, those of names, and foreign ones."""
        self.tls = self.folder / "tls"
        foreign = self.folder / "foreign"
        clients = [["client", self.tls, name] for name in ("www", "desk", "gone")]
        own = [["authority", self.tls], ["host", self.tls, HOST], *clients]
        for words in (*own, ["authority", foreign], ["client", foreign, "www"]):
            subprocess.run([REMOTE / "sdd-certificate", *words], check=True, timeout=WAIT, stdout=subprocess.DEVNULL)
        # A foreign certificate, with which the client trusts the right host.
        text = (foreign / "www.pem").read_text()
        head = text[:text.rindex("-----BEGIN CERTIFICATE")]
        (foreign / "www.pem").write_text(head + (self.tls / "authority.pem").read_text())
        for name in ("host_key", "www", "desk", "admin", "foreign_key"):
            command = ["ssh-keygen", "-q", "-t", "ed25519", "-N", "", "-C", name, "-f", self.folder / name]
            subprocess.run(command, check=True, timeout=WAIT)
        public = (self.folder / "host_key.pub").read_text().split()
        (self.folder / "known").write_text(f"{HOST} {public[0]} {public[1]}\n")

    def put(self, name, text, secret=False):
        """A file in the host's own folder."""
        path = f"{self.run_folder}/{name}"
        command = self.host.command("sh", "-c", f"umask 077; cat > {path}; chmod {'0600' if secret else '0644'} {path}")
        subprocess.run(command, input=text, text=True, check=True, timeout=WAIT)
        return path

    def start(self, *words, log):
        with open(self.folder / log, "ab") as file:
            process = subprocess.Popen([*DIES_WITH_US, *words], stdout=file, stderr=file, start_new_session=True)
        self.running.append(process)
        return process

    def serve(self, names):
        """Starts all, with these tables of names."""
        self.conf = self.put("relay.toml", f'socket = "{SOCKET}"\nstate = "{self.run_folder}/state"\n'
                             f'log = "{self.run_folder}/state/log"\n{names}')
        self.start_daemon()
        self.start_proxy()
        self.start_sshd()
        self.start_stunnel()

    def start_daemon(self):
        volumes = self.folder / "volumes"
        volumes.mkdir(mode=0o700, exist_ok=True)
        conf = self.folder / "sdd.conf"
        conf.write_text("port = 9103\n" + drive("File", volumes))
        log = self.folder / "sdd.log"
        self.daemon = self.start(*self.private.command(self.program, "serve", conf, "--log", "--wait", "3"), log="sdd.log")
        if not until(lambda: "listening on" in log.read_text()):
            raise TimeoutError(log.read_text())

    def start_proxy(self):
        """The socket as systemd makes it by examples/sdd-clients.socket, and the command of sdd-clients.service."""
        unit = (EXAMPLES / "sdd-clients.service").read_text()
        words = next(line for line in unit.splitlines() if line.startswith("ExecStart=")).removeprefix("ExecStart=").split()
        code = (f"import os, socket, sys; s = socket.socket(socket.AF_UNIX); os.umask(0o777); s.bind({SOCKET!r}); "
                f"os.chown({SOCKET!r}, 0, {RELAY_GROUP}); os.chmod({SOCKET!r}, 0o660); s.listen(320); "
                "s.set_inheritable(True); os.dup2(s.fileno(), 3); "
                "os.environ.update(LISTEN_FDS='1', LISTEN_PID=str(os.getpid())); os.execvp(sys.argv[1], sys.argv[1:])")
        # The host's files and the daemon's network.
        inner = ["nsenter", "-t", str(self.private.process.pid), "--net", "--", *words]
        self.start(*self.host.command("/usr/bin/python3", "-c", code, *inner), log="proxy.log")
        until(lambda: subprocess.run(self.host.command("test", "-S", SOCKET)).returncode == 0)

    def start_sshd(self):
        lines = [(REMOTE / "authorized_keys").read_text().splitlines()[-1]]
        # The example's line, with the test's paths, names and keys.
        made = [lines[0].replace("/usr/local/bin/sdd-relay", f"{RELAY} --conf {self.conf}").replace("--as www", f"--as {name}")
                .rpartition("ssh-ed25519 ")[0] + (self.folder / f"{name}.pub").read_text() for name in ("www", "desk", "admin")]
        keys = self.put("keys", "".join(made))
        base = (f"Port 22\nListenAddress {HOST}\nHostKey {self.folder}/host_key\nUsePAM no\nPasswordAuthentication no\n"
                "PidFile none\n")
        conf = self.put("sshd.conf", base + (REMOTE / "sshd.conf").read_text().replace("/etc/ssh/sdd-relay.keys", keys))
        self.start(*self.host.command("/usr/sbin/sshd", "-D", "-e", "-f", conf), log="sshd.log")
        self.await_port(22)

    def start_stunnel(self):
        host = self.put("host.pem", (self.tls / "host.pem").read_text(), secret=True)
        text = (REMOTE / "stunnel.conf").read_text()
        authority = self.put("ca.pem", (self.tls / "authority.pem").read_text())
        for old, new in (("/etc/sdd-relay/host.pem", host), ("/etc/sdd-relay/authority.pem", authority),
                         ("exec = /usr/local/bin/sdd-relay", f"exec = {RELAY}"),
                         ("sdd-relay --tls", f"sdd-relay --conf {self.conf} --tls"),
                         ("syslog = yes", "syslog = no\nforeground = yes\ndebug = notice")):
            assert old in text, old
            text = text.replace(old, new)
        self.start(*self.host.command("/usr/bin/stunnel4", self.put("stunnel.conf", text)), log="stunnel.log")
        self.await_port(9104)

    def await_port(self, port):
        """Waits until the host listens there."""
        code = f"import socket; socket.create_connection(('{HOST}', {port}), 2).close()"
        command = self.client.command(sys.executable, "-c", code)
        if not until(lambda: subprocess.run(command, stderr=subprocess.DEVNULL).returncode == 0):
            raise TimeoutError(f"port {port}")

    # The ways of a client.

    def rsh(self, key, more=""):
        options = f"-o IdentitiesOnly=yes -o UserKnownHostsFile={self.folder / 'known'} -o BatchMode=yes {more}"
        return ["--rsh", f"ssh -q -F none -i {self.folder / key} {options} sdd-relay@{HOST}"]

    def by_tls(self, file):
        return ["--tls", HOST, "--cert", str(file)]

    def say(self, way, *words, pool="Default", job=7, where=None, timeout=120):
        """What the client prints, and its status."""
        command = [sys.executable, CLIENT, *way, "--pool", pool, "--job", str(job), *words]
        run = subprocess.run((where or self.client).command(*command), capture_output=True, text=True, timeout=timeout)
        return (run.stdout + run.stderr).strip(), run.returncode

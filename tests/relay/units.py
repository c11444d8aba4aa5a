"""The units for a socket in place of the port."""
import configparser
import os
import pathlib
import re
import shutil
import socket
import subprocess
import sys

from daemon import ROOT

sys.path.append(str(ROOT / "client"))
from sdd_client import transport_local

EXAMPLES = ROOT / "examples"
# What `verify` says of pages and programs that aren't installed here.
NOT_INSTALLED = ("man ", "is not executable", "Failed to open")


def section(file, name):
    """A section of a unit; of a key that is there twice the last."""
    parser = configparser.ConfigParser(strict=False, interpolation=None, delimiters=("=",))
    parser.optionxform = str
    parser.read(EXAMPLES / file)
    return parser[name]


def run(checks, folder):
    fits(checks)
    local(checks, folder)
    installed(checks, folder)
    if not shutil.which("systemd-analyze"):
        print("units: not verified, for want of systemd-analyze")
        return
    for name in ("sdd.service", "sdd-clients.service", "sdd-clients.socket"):
        shutil.copy(EXAMPLES / name, folder)
    (folder / "sdd.service.d").mkdir()
    shutil.copy(EXAMPLES / "sdd-private.conf", folder / "sdd.service.d" / "private.conf")
    names = ["sdd.service", "sdd-clients.service", "sdd-clients.socket"]
    told = [line for line in verified(folder, *names).splitlines()
            if "sdd" in line and not any(part in line for part in NOT_INSTALLED)]
    checks.same("systemd-analyze verify", told, [])
    (folder / "sdd-clients.service").write_text("[Service]\nExecStart=nowhere\nNoSuchKey=1\n")
    checks.check("it tells faults", "NoSuchKey" in verified(folder, "sdd-clients.service"))


def verified(folder, *names):
    """What `systemd-analyze verify` says of units in a folder."""
    run = subprocess.run(["systemd-analyze", "verify", "--man=no", *names], cwd=folder, capture_output=True, text=True,
                         timeout=120, env={**os.environ, "SYSTEMD_UNIT_PATH": f"{folder}:"})
    return run.stderr


def fits(checks):
    """The units name each other, one port, and as many connections as the daemon serves."""
    proxy, listens = section("sdd-clients.service", "Service"), section("sdd-clients.socket", "Socket")
    unit = section("sdd-clients.service", "Unit")
    checks.same("of the daemon's network", (unit["JoinsNamespaceOf"], proxy["PrivateNetwork"]), ("sdd.service", "yes"))
    checks.same("the daemon's own", section("sdd-private.conf", "Service")["PrivateNetwork"], "yes")
    checks.same("the group's", (listens["SocketGroup"], listens["SocketMode"]), ("sdd-clients", "0660"))
    words = proxy["ExecStart"].split()
    checks.check("the program", pathlib.Path(words[0]).exists() or not pathlib.Path("/usr/lib/systemd").exists(), words[0])
    served = re.search(r"^Up to (\d+) connections", (ROOT / "docs" / "man" / "sdd.8").read_text(), re.MULTILINE)[1]
    checks.same("the daemon's bound", [word for word in words if word.startswith("--conn")], [f"--connections-max={served}"])
    checks.same("the port", words[-1], "127.0.0.1:9103")


def installed(checks, folder):
    """`install` puts the relay, its units and its examples below a prefix, and each names that."""
    source, prefix = sources(folder), folder / "prefix"
    for program in ("sdd", "sdtool"):
        shutil.copy("/bin/true", source / "bin" / program)
    subprocess.run([source / "install", prefix], check=True, timeout=60)
    relay, conf = prefix / "bin" / "sdd-relay", prefix / "etc" / "sdd-relay.toml"
    run = subprocess.run([relay, "--check"], capture_output=True, text=True, timeout=60)
    checks.check("the configuration's place", run.returncode == 2 and str(conf) in run.stderr, run.stderr)
    example = prefix / "share" / "sdd" / "examples" / "remote"
    shutil.copy(example / "sdd-relay.toml", conf)
    run = subprocess.run([relay, "--check"], capture_output=True, text=True, timeout=60)
    checks.same("the example is one", [line.split()[:2] for line in run.stdout.splitlines()],
                [["admin", "operator"], ["desk", "client"], ["www", "append-only"]])
    checks.check("the forced command", f'command="{relay} --as www"' in (example / "authorized_keys").read_text())
    checks.check("stunnel's program", f"exec = {relay}\n" in (example / "stunnel.conf").read_text())
    for unit in ("sdd-clients.socket", "sdd-clients.service"):
        checks.check(f"{unit} is there", (prefix / "lib" / "systemd" / "system" / unit).exists())
    checks.check("a script", os.access(example / "sdd-certificate", os.X_OK))


def sources(folder):
    """What `install` takes, but for the programs."""
    source = folder / "source"
    for part in ("client", "examples", "docs", "keeper", "relay"):
        shutil.copytree(ROOT / part, source / part, ignore=shutil.ignore_patterns("__pycache__"))
    shutil.copy(ROOT / "install", source)
    (source / "bin").mkdir()
    return source


def local(checks, folder):
    """The client's way on this machine."""
    checks.same("the socket's path", transport_local.SOCKET, section("sdd-clients.socket", "Socket")["ListenStream"])
    with socket.socket(socket.AF_UNIX) as near, socket.create_server(("127.0.0.1", 0)) as far:
        near.bind(str(folder / "socket"))
        near.listen(5)
        port = far.getsockname()[1]
        # By the socket where no port is named; a socket that is there, but that nobody listens on, is no reason for another way.
        way = transport_local.local(None, 5, str(folder / "socket"))
        checks.same("the socket first", way.socket.family, socket.AF_UNIX)
        way.close()
        way = transport_local.local(port, 5, str(folder / "socket"))
        checks.same("a port that is named", way.socket.family, socket.AF_INET)
        way.close()
    try:
        transport_local.local(None, 5, str(folder / "socket"))
        checks.check("nobody listens", False)
    except ConnectionRefusedError:
        checks.check("nobody listens", True)

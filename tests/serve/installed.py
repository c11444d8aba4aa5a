"""What `install` puts below a prefix fits together: the unit's commands are there, in their order, and take one another; a start by them
takes over the volumes of an earlier run. tests/serve/run runs it.
"""
import collections
import shlex
import shutil
import subprocess

from clients import client, library, say
from daemon import ROOT, SDD, SDTOOL, WAIT, Daemon, drive, environment, free_port, later_second

PARTS = ("client", "examples", "docs", "keeper", "relay")


def service_of(path):
    """The lines of the unit's service by their keys."""
    said = collections.defaultdict(list)
    for line in path.read_text().partition("[Service]\n")[2].partition("\n[")[0].splitlines():
        key, _, value = line.partition("=")
        if value and not line.startswith("#"):
            said[key].append(value)
    return said


def ran(command, **options):
    """A command of the unit's, which may have a minus before it: what it prints, and its status."""
    done = subprocess.run(shlex.split(command.removeprefix("-")), capture_output=True, text=True, timeout=WAIT, **options)
    return done.stdout + done.stderr, done.returncode


def installed(checks, folder, _):
    source, prefix = folder / "source", folder / "prefix"
    for part in PARTS:
        shutil.copytree(ROOT / part, source / part)
    (source / "bin").mkdir()
    for file, to in [(ROOT / "install", "install"), (SDD, "bin/sdd"), (SDTOOL, "bin/sdtool")]:
        shutil.copy(file, source / to)
    subprocess.run([source / "install", prefix], check=True, timeout=60)
    lain = {f"share/doc/sdd/{part}": list((ROOT / "docs" / part).iterdir()) for part in ("use", "engineering", "pictures")}
    for place, files in {**lain, "share/sdd/examples": list(ROOT.glob("examples/*.yml"))}.items():
        checks.check(f"its {place}", files and all((prefix / place / one.name).read_bytes() == one.read_bytes() for one in files))
    library(prefix / "share/sdd/client.py")
    path = prefix / "lib/systemd/system/sdd.service"
    unit = service_of(path)
    commands(checks, prefix, unit)
    adopts(checks, folder, prefix, unit)
    if not (verify := shutil.which("systemd-analyze")):
        print("the unit: its keys not tried, there is no systemd-analyze")
        return
    run = subprocess.run([verify, "verify", "--man=no", path], capture_output=True, text=True, timeout=60)
    checks.same("the unit", (run.returncode, run.stdout + run.stderr), (0, ""))


def commands(checks, prefix, unit):
    """Its programs are those below the prefix, with its configuration, and the daemon has its options."""
    (start,) = unit["ExecStart"]
    program, command, conf, *options = shlex.split(start)
    checks.same("its daemon", (program, command, conf), (str(prefix / "bin/sdd"), "serve", str(prefix / "etc/sdd.conf")))
    shown = subprocess.run([program, command, "--help"], capture_output=True, text=True, timeout=20).stdout
    checks.check("its options", all(word in shown for word in options if word.startswith("--")), options)
    checks.check("it adopts", "--adopt" in options, options)
    checks.same("a stop's file", (unit["ExecStartPre"][0], options[options.index("--until") + 1]), ("/bin/rm -f /run/sdd/stop", "/run/sdd/stop"))
    checks.same("its check", ran(unit["ExecStartPre"][1])[1], 0)
    # A minus before a command says that the daemon starts if it fails.
    checks.same("before and after a start", (unit["ExecStartPre"][2:], unit["ExecStartPost"]),
                ([f"-{prefix}/lib/sdd/sdd-refresh {conf}"], [f"-{prefix}/lib/sdd/sdd-listens {conf}"]))


def adopts(checks, folder, prefix, unit):
    """A start by the unit's commands takes over what an earlier run labelled."""
    place, conf, port = folder / "adopts", prefix / "etc/sdd.conf", free_port()
    place.mkdir()
    conf.write_text(f"port = {port}\n" + drive("File", place))
    with Daemon(conf, port=port):
        checks.same("label", say(port, "console", "label", "1", "Vol-0001", "Default", "File"), ("ok labelled\n", 0))
    later_second()
    for command in unit["ExecStartPre"][1:]:
        checks.same(command, (ran(command)[1], ran(unit["ExecStartPre"][2])), (0, ("", 0)))
    stop = folder / "stop"
    _, _, _, *options = shlex.split(unit["ExecStart"][0].replace("/run/sdd/stop", str(stop)))
    options.remove("--log")
    with Daemon(conf, *options, port=port) as daemon:
        checks.same("it listens", ran(unit["ExecStartPost"][0], env=environment(MAINPID=daemon.process.pid)), ("", 0))
        checks.check("adopted", "volume Vol-0001 Default File append 92\n" in say(port, "console", "status")[0], daemon.log())
        with client.Talk(port, timeout=WAIT) as talk:
            talk.terminate()
        stop.touch()
        checks.same("its end", daemon.wait(), ("", 0))


GROUPS = (installed,)

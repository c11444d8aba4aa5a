"""The keeper as it is installed: its program, its units, and the example of the file of pools."""
import os
import shutil
import subprocess

from daemon import ROOT

UNITS = ("sdd.service", "sdd-keeper.service", "sdd-keeper-scrub.service", "sdd-keeper-scrub.timer")
# What `verify` says of pages and programs that aren't installed here.
NOT_INSTALLED = ("man ", "is not executable", "Failed to open")


def run(checks, folder):
    source, prefix = folder / "source", folder / "prefix"
    for part in ("client", "examples", "docs", "keeper", "relay"):
        shutil.copytree(ROOT / part, source / part, ignore=shutil.ignore_patterns("__pycache__"))
    shutil.copy(ROOT / "install", source)
    (source / "bin").mkdir()
    for program in ("sdd", "sdtool"):
        shutil.copy("/bin/true", source / "bin" / program)
    subprocess.run([source / "install", prefix], check=True, timeout=60)
    example = prefix / "share" / "sdd" / "examples" / "keeper.toml"
    own = folder / "keeper.toml"
    own.write_text(example.read_text().replace('"/var/lib/', f'"{folder}/'))
    run = subprocess.run([prefix / "bin" / "sdd-keeper", "--dry-run", own], capture_output=True, text=True, timeout=60)
    # It is read, and then there is no folder of a daemon.
    checks.check("the example is one", run.returncode == 1 and "/var/lib/sdd has no .lock~" in run.stderr, run.stderr)
    checks.check("it names the prefix", f'daemon = "{prefix}/etc/sdd.conf"' in example.read_text())
    units = prefix / "lib" / "systemd" / "system"
    for unit in UNITS:
        checks.check(f"{unit} is there", (units / unit).exists())
    service = (units / "sdd-keeper.service").read_text()
    checks.check("the unit's command", f"ExecStart={prefix}/bin/sdd-keeper {prefix}/etc/keeper.toml" in service, service)
    if not shutil.which("systemd-analyze"):
        print("installed: not verified, for want of systemd-analyze")
        return
    environment = {**os.environ, "SYSTEMD_UNIT_PATH": f"{units}:"}
    run = subprocess.run(["systemd-analyze", "verify", "--man=no", *UNITS], cwd=units, capture_output=True, text=True,
                         timeout=120, env=environment)
    told = [line for line in run.stderr.splitlines() if "sdd" in line and not any(part in line for part in NOT_INSTALLED)]
    checks.same("systemd-analyze verify", told, [])

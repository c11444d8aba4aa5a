"""How the package is made: the same bytes twice, what is in it, and what lintian says of it."""
import hashlib
import shutil
import subprocess

from daemon import ROOT, SDD, SDTOOL
from package import field, package

# What is to be there besides all modules.
FILES = {
    "usr/bin/sdd", "usr/bin/sdtool", "usr/bin/sdd-client", "usr/bin/sdd-keeper", "usr/bin/sdd-relay", "etc/sdd/sdd.conf",
    "usr/lib/sdd/sdd-refresh", "usr/lib/sdd/sdd-listens", "etc/needrestart/conf.d/sdd.conf", "usr/lib/sysusers.d/sdd.conf",
    "usr/share/doc/sdd/README.md.gz", "usr/share/doc/sdd/use/OPERATIONS.md.gz", "usr/share/doc/sdd/engineering/PROVED.md.gz",
    *(f"lib/systemd/system/{unit}" for unit in (
        "sdd.service", "sdd-backup@.service", "sdd-backup@.timer", "sdd-keeper.service", "sdd-keeper-scrub.service",
        "sdd-keeper-scrub.timer", "sdd-clients.service", "sdd-clients.socket")),
    *(f"usr/share/sdd/examples/{name}" for name in (
        "keeper.toml", "alerts.yml", "keeper-alerts.yml", "prometheus.yml", "remote/sdd-relay.toml")),
}


def sum_of(path):
    return hashlib.sha256(path.read_bytes()).hexdigest()


def run(checks, folder, deb):
    again = package(folder / "again")
    checks.same("made twice", (again.name, sum_of(again)), (deb.name, sum_of(deb)))
    tree = folder / "tree"
    subprocess.run(["dpkg-deb", "--extract", deb, tree], check=True)
    there = {str(path.relative_to(tree)) for path in tree.rglob("*") if not path.is_dir() or path.is_symlink()}
    checks.same("what is there", FILES - there, set())
    pages = {f"usr/share/man/man{page.suffix[1:]}/{page.name}.gz" for page in (ROOT / "docs" / "man").glob("*.[0-9]")}
    checks.same("each manual page", pages - there, set())
    modules = {f"usr/share/sdd/{path.relative_to(ROOT)}" for part in ("keeper", "relay") for path in (ROOT / part).glob("*.py")}
    modules |= {f"usr/lib/sdd-client/sdd_client/{path.name}" for path in (ROOT / "client" / "sdd_client").glob("*.py")}
    checks.same("each module", modules - there, set())
    for program in (SDD, SDTOOL):
        checks.same(f"{program.name} is as it was built", sum_of(tree / "usr/bin" / program.name), sum_of(program))
    texts = {str(path.relative_to(tree)): path.read_text(errors="replace") for path in tree.rglob("*")
             if path.is_file() and "usr/share/doc" not in str(path) and path.name not in ("sdd", "sdtool")}
    checks.same("no other prefix", [name for name, text in texts.items() if "/usr/local" in text], [])
    checks.same("its configuration", subprocess.run(["dpkg-deb", "--info", deb, "conffiles"], capture_output=True, text=True).stdout.split(),
                ["/etc/needrestart/conf.d/sdd.conf", "/etc/sdd/sdd.conf"])
    checks.check("a version", field(deb, "Version").startswith((ROOT / "VERSION").read_text().strip() + "+"))
    if not shutil.which("lintian"):
        print("not run: lintian, which isn't there (tools/packages)")
        return
    said = subprocess.run(["lintian", "--fail-on", "error", deb], capture_output=True, text=True, timeout=1800)
    checks.check("lintian without errors", said.returncode == 0 and "E: " not in said.stdout, said.stdout, said.stderr)

"""The file of names."""
import os
import subprocess

from held import RELAY, Always, Place, Relayed, Server, table
from relay.configuration import configured
from relay.errors import Misconfigured
from relay.store import Store

NOBODY = 65534
RIGHT = 'role = "client"\npools = ["Default"]\nmedia = ["File"]\njobs = [7]\n'
# A text, and a part of what is told of it.
FAULTS = [
    ("x = 1", "x is no key"), ("socket = 1", "socket is a text"), ("port = 0", "port is a number"),
    ("port = true", "port is a number"),
    ('port = 9103\nsocket = "/s"', "name one"), ('state = "here"', "begins with /"), ('log = "log"', "begins with /"),
    ("name = 1", "names are tables"), ("name.www = 1", "names are tables"), ("[name.www", "end of document"), ("\xff", "utf-8"),
    ('[name.www]\nrole = "client"', "pools and media and jobs must be there"), ("[name.www]", "role is one of"),
    ('[name.www]\nrole = "root"', "role is one of"),
    *((f'[name."{name}"]\n{RIGHT}', "a name has") for name in ("../x", "a/b", "a\\n", ".x", "-x", "", "x" * 65)),
    (f"[name.www]\n{RIGHT}byte_a_day = 7", "no key"), (f"[name.www]\n{RIGHT}bytes_a_day = 0", "bytes_a_day is a number"),
    (f"[name.www]\n{RIGHT}bytes_a_day = 1.5", "bytes_a_day is a number"),
    (f"[name.www]\n{RIGHT}talks = 321", "talks is a number"),
    (f"[name.www]\n{RIGHT}sessions_a_day = -1", "sessions_a_day is a number"),
    *((f'[name.www]\n{RIGHT.replace("jobs = [7]", f"jobs = {jobs}")}', "jobs") for jobs in (
        "7", '"7"', "[0]", '["9-7"]', '["7-"]', "[2147483648]", '["07"]', "[true]", "[[7]]", '["1-2147483648"]')),
    (f'[name.www]\n{RIGHT.replace("Default", "a/b")}', "pools is a list of names"),
    (f'[name.www]\n{RIGHT.replace("[", "", 2).replace("]", "", 2)}', "pools is a list of names"),
]


def said(place, *words):
    run = subprocess.run([RELAY, "--conf", place.conf, *words], capture_output=True, text=True, timeout=60)
    return run.stdout, run.stderr, run.returncode


def run(checks, folder):
    place = Place(folder)
    for text, part in FAULTS:
        place.conf.write_bytes(text.encode("latin-1"))
        try:
            configured(place.conf)
            checks.check(f"{text!r}", False, "no fault")
        except Misconfigured as why:
            checks.check(f"{text!r}", part in str(why), why)
    check_commands(checks, place)
    grants(checks, folder)


def check_commands(checks, place):
    place.conf.write_text("[name.www]\n")
    checks.check("a faulty file", said(place, "--check")[2] == 2 and "role" in said(place, "--check")[1])
    with Relayed(place.conf, "--as", "www") as client:
        checks.same("no talk by it", (client.receive(), client.ended()[0]), (None, 2))
    place.write(table("www", "append-only", jobs='[3, "7-9"]', bytes_a_day=5) + '[name.admin]\nrole = "operator"\n')
    checks.same("what each may", said(place, "--check"), (
        "admin operator pools all media all jobs all bytes all sessions all talks 8\n"
        "www append-only pools Default media File jobs 3,7-9 bytes 5 sessions 10000 talks 8\n", "", 0))
    for words in ([], ["--as", "www", "--tls"], ["--as"], ["--grant"], ["www"]):
        checks.same(f"{words} is no command line", said(place, *words)[2], 2)
    place.conf.unlink()
    checks.check("no file", said(place, "--check")[2] == 2)


def grants(checks, folder):
    """A session from before the relay, which a name is let read."""
    (folder / "granted").mkdir()
    place = Place(folder / "granted", table("desk", "client") + table("www", "append-only"))
    spans = place.folder / "spans"
    spans.write_text("session 4000 9\nspan Vol-0001 1 1 1 92 259\n")
    place.state.mkdir(mode=0o700)
    if os.geteuid() == 0:
        # What root does is the owner's.
        folder.chmod(0o755)
        place.folder.chmod(0o755)
        os.chown(place.state, NOBODY, NOBODY)
    checks.same("granted", said(place, "--grant", "desk", spans), ("", "", 0))
    checks.same("again", said(place, "--grant", "desk", spans), ("", "", 0))
    checks.same("of the folder's owner", {file.stat().st_uid for file in place.state.iterdir()}, {place.state.stat().st_uid})
    store = Store(place.state)
    checks.check("kept", store.is_own("desk", (4000, 9)) and not store.is_own("www", (4000, 9)))
    store.close()
    spans.write_text("span Vol-0001 1 1 1 92 259\n")
    checks.same("no spans", said(place, "--grant", "desk", spans)[2], 1)
    checks.same("no name", said(place, "--grant", "nobody", spans)[2], 1)
    with Server(place.socket, Always), place.relayed("desk") as client:
        client.send("read session Time=4000 Id=9", "span Vol-0001 1 1 1 92 259", -1)
        checks.check("read", client.receive() != -1)

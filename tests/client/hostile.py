"""What could harm: archives that whoever may append could have made, by which nothing is written outside the folder of a
restore; and trees whose names and links would lead a client astray, of which nothing else is kept than what is in them."""
import gzip
import io
import json
import os
import tarfile
import threading

import standin
from clients import client
from daemon import until
from sdd_client.catalogue import Catalogue, listed
from sdd_client.filelist import Row, plain
from sdd_client.head import Head, Place
from sdd_client.tarcut import END, Members
from site_of_test import is_told, say
from trees import differences

# Names that a program or its shell could take for something else.
ASTRAY = ["-x", "--checkpoint-action=exec=touch pwned", "--files-from=kept", "@kept", "[z]*", "z?", "new\nline", "a:b", "..x", "\\", "'",
          "$(touch pwned)", "%d", " ", "="]
FILE, LINK, HARD, FOLDER = tarfile.REGTYPE, tarfile.SYMTYPE, tarfile.LNKTYPE, tarfile.DIRTYPE


def archive(members):
    """A tar archive of members, each a name, a type and the target of a link, that ends with its two empty blocks."""
    made = io.BytesIO()
    with tarfile.open(fileobj=made, mode="w", format=tarfile.PAX_FORMAT) as tar:
        for name, kind, target in members:
            one = tarfile.TarInfo(name)
            one.type, one.linkname, one.mode = kind, target, 0o777
            one.size = 4 if kind == FILE else 0
            tar.addfile(one, io.BytesIO(b"evil"))
        end = tar.offset
    return made.getvalue()[:end] + END


def rows_of(data):
    stream, at = io.BytesIO(data), 0
    for member in Members(stream):
        yield Row(member.kind, member.size, member.mtime, 1, at, member.length(), plain(member.path), member.link)
        at += member.length()
        stream.seek(at)


def planted(site, port, number, data):
    """Puts an archive into a session and into the catalogue, as a job."""
    rows = list(rows_of(data))
    with client.Talk(port) as talk:
        place = session(talk, [(2, data)])
        head = Head("host", f"evil{number}", number, number, number, "Default", "File", len(rows), 4, 0, sessions=[place])
        last = session(talk, [(3, head.encoded()), (4, gzip.compress(b"".join(map(encoded, rows))))])
    with Catalogue(site.catalogue) as catalogue:
        catalogue.keep(head, last, listed(rows))
    return head.job


def session(talk, records):
    """A session of records, each a Stream and data."""
    ticket = client.open_session(talk, 1, "Default", "File")
    for index, (stream, data) in enumerate(records, 1):
        client.append_packets(talk, ticket, [client.packet(data)], index, stream)
    size = sum(len(data) for _, data in records)
    return Place(client.close_session(talk, ticket), size, size)


def encoded(row):
    """A row of a list of files."""
    numbers = " ".join(map(str, row[1:6])).encode()
    return row.kind.encode() + b" " + numbers + b" " + row.path + b"\0" + row.text + b"\0"


def archives(checks, site):
    """Names with .. and from the root, links out of the folder with members below them, hard links to what is outside."""
    away = site.folder / "away"
    away.mkdir()
    kept = away / "kept"
    kept.write_text("good")
    inside = f"{away}".lstrip("/")
    cases = [[("../away/x", FILE, "")], [("a/../../away/x", FILE, "")], [(f"{away}/x", FILE, "")], [(f"{away}/kept", FILE, "")],
             [("a", LINK, str(away)), ("a/x", FILE, "")], [("a", LINK, "../away"), ("a/x", FILE, "")],
             [("a", LINK, "../away"), ("b", LINK, "a"), ("b/x", FILE, "")], [("a", LINK, str(kept)), ("a", FILE, "")],
             [("a", HARD, str(kept)), ("a", FILE, "")], [("a", HARD, "../away/kept"), ("a", FILE, "")],
             [("a", LINK, str(away)), ("a", FOLDER, ""), ("a/x", FILE, "")], [("a/b", LINK, "../.."), ("a/b/away/x", FILE, "")],
             [("a", LINK, "."), ("a/a/a/../../away/x", FILE, "")], [(".", LINK, str(away)), ("x", FILE, "")],
             [("a", LINK, str(away)), ("a/kept", FILE, "")], [("a" * 120, LINK, str(away)), ("a" * 120 + "/x", FILE, "")],
             [(f"../{inside}/x", HARD, "kept")]]
    with standin.StandIn() as daemon:
        for number, members in enumerate(cases, 1):
            name = planted(site, daemon.port, number, archive(members))
            for words in ([], ["--replace"], [f"/{members[-1][0]}"]):
                out = site.folder / "out" / str(number)
                came = say(daemon.port, "restore", name, *words, "--to", out, env=site.env)
                checks.check(f"{members} {words}: told", came[1] in (0, 1, 3) and "Traceback" not in came[0], came)
                outside(checks, members, away)
            # The same, broken off in the last member's bytes.
            index, stream, data = daemon.sessions[-2].records[0]
            daemon.sessions[-2].records = [(index, stream, data[:-1024 - 300])]
            came = say(daemon.port, "restore", name, "--to", site.folder / "cut" / str(number), env=site.env)
            checks.check(f"{members} cut: told", came[1] in (0, 1, 3) and "Traceback" not in came[0], came)
            outside(checks, members, away)
    print(f"hostile archives: {len(cases)}")


def outside(checks, members, away):
    """What is outside the folder is as it was."""
    kept = (away / "kept").stat()
    checks.same(f"{members}: outside", (os.listdir(away), (away / "kept").read_text(), kept.st_nlink, kept.st_mode & 0o777),
                (["kept"], "good", 1, 0o644))


def broken_streams(checks, site):
    """Sessions that are no tar archives, or are cut or changed anywhere: told, without a traceback."""
    good = archive([("a", FILE, ""), ("b", LINK, "a"), ("c" * 150, FILE, "")])
    with standin.StandIn() as daemon:
        name = planted(site, daemon.port, 1, good)
        is_told(checks, "good", say(daemon.port, "restore", name, "--to", site.folder / "good", env=site.env), 0)
        is_told(checks, "checked", say(daemon.port, "check", name, env=site.env), 0)
        sessions = daemon.sessions[0]
        # Without tar's two empty blocks at the end each file is there all the same.
        for number, (data, statuses) in enumerate([(b"", (1,)), (good[:700], (1,)), (good[:-1024], (0,)), (b"x" * len(good), (1, 3)),
                                                   (good[:1024] + b"9" * 512 + good[1536:], (1, 3))]):
            sessions.records, sessions.bytes = [(1, 2, data)], len(data)
            came = say(daemon.port, "check", name, env=site.env)
            checks.check(f"check {number}", came[1] == 1 and "Traceback" not in came[0], came)
            came = say(daemon.port, "restore", name, "--to", site.folder / str(number), env=site.env)
            checks.check(f"restore {number}", came[1] in statuses and "Traceback" not in came[0], came)


def named_astray(checks, site):
    """Folders whose names could be taken for options, patterns, lists or commands: each is kept alone, as it is, also by an
    increment; and links to what is outside, to themselves and upwards are kept as links."""
    away = site.folder / "away"
    away.mkdir()
    (away / "kept").write_text("good")
    for name in [*ASTRAY, "zz", "kept"]:
        (site.files / name).mkdir(parents=True)
        (site.files / name / "inside").write_text(name)
        for link, target in (("out", away), ("file", away / "kept"), ("self", "self"), ("up", ".."), ("root", "/")):
            os.symlink(target, site.files / name / link)
    with standin.StandIn() as daemon:
        for number, name in enumerate(ASTRAY):
            for day in (1, 2):
                came = say(daemon.port, "backup", "--incremental", f"j{number}", "--", name, env=site.env, cwd=site.files)
                is_told(checks, f"{name!r}: day {day}", came, 0)
            rows = json.loads(say(daemon.port, "files", f"j{number}", "--json", env=site.env)[0])
            found = {os.path.relpath(row["path"], site.files / name) for row in rows}
            checks.same(f"{name!r}: kept", found, {".", "inside", "out", "file", "self", "up", "root"})
            out = site.folder / "out" / str(number)
            is_told(checks, f"{name!r}: restore", say(daemon.port, "restore", f"j{number}", "--to", out, env=site.env), 0)
            checks.same(f"{name!r}: the same", differences(site.files / name, out / str(site.files).lstrip("/") / name), "")
    checks.same("no command was run", list(site.folder.rglob("pwned")), [])
    checks.same("outside", (os.listdir(away), (away / "kept").read_text()), (["kept"], "good"))


def swapped(checks, site):
    """A folder that becomes a link to what is outside, while the job is within a file before it: nothing is kept of what the
    link leads to."""
    away, files = site.folder / "away", site.files
    away.mkdir()
    (away / "kept").write_text("good")
    (files / "b").mkdir(parents=True)
    (files / "b" / "inside").write_text("x")
    (files / "a").write_bytes(bytes([7]) * 16_000_000)
    with standin.StandIn() as daemon:
        def swap():
            until(lambda: daemon.taken > 500_000)
            (files / "b").rename(site.folder / "moved")
            os.symlink(away, files / "b")

        swapper = threading.Thread(target=swap)
        swapper.start()
        came = say(daemon.port, "backup", "j", "--through", "sh -c 'head -c 1500000; sleep 2; exec cat'", files, env=site.env)
        swapper.join()
        checks.check("told", came[1] in (0, 3) and "Traceback" not in came[0], came)
        is_told(checks, "restore", say(daemon.port, "restore", "j", "--undo", "cat", "--to", site.folder / "out", env=site.env), 0)
    back = site.folder / "out" / str(files).lstrip("/")
    checks.same("the file before it", (back / "a").read_bytes(), (files / "a").read_bytes())
    checks.check("a link or nothing", (back / "b").is_symlink() or not (back / "b").exists(), sorted(back.rglob("*")))


GROUPS = {archives: "", broken_streams: "", named_astray: "", swapped: ""}

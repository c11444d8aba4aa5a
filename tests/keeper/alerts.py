"""The alerts by promtool, over series as the keeper writes them; and that each figure of an alert is one of the keeper's."""
import re
import shutil
import subprocess

from daemon import ROOT
from keeper.figures import HELP

ALERTS = ROOT / "examples" / "keeper-alerts.yml"
# A day's alerts over some series: what is written, and which alerts there are after that time, with their labels.
TESTS = """
rule_files: [{alerts}]
evaluation_interval: 1m
tests:
  - interval: 1m
    input_series:
      - series: 'sdd_keeper_round_seconds'
        values: '0+60x60 3600x60'
      - series: 'sdd_keeper_no_room{{pool="Daily",drive="1"}}'
        values: '0x30 1x300'
      - series: 'sdd_keeper_no_room{{pool="Daily",drive="2"}}'
        values: '0x300'
      - series: 'sdd_keeper_days_left{{pool="Daily",drive="1"}}'
        values: '8x30 6.5x300'
      - series: 'sdd_keeper_damaged_volumes{{pool="Daily"}}'
        values: '0x30 1x300'
      - series: 'sdd_keeper_damaged_jobs'
        values: '0x30 2x300'
      - series: 'sdd_keeper_differences'
        values: '0x30 3x300'
      - series: 'sdd_keeper_last_success_seconds{{client="www",job="home"}}'
        values: '-171000x300'
    alert_rule_test:
{wanted}
  - interval: 1m
    input_series: []
    alert_rule_test:
      - {{eval_time: 14m, alertname: NoKeeper, exp_alerts: []}}
      - eval_time: 16m
        alertname: NoKeeper
        exp_alerts: [{{exp_labels: {{severity: page}}, exp_annotations: {{summary: 'there are no figures of the keeper'}}}}]
"""
# An alert, when it isn't there yet, when it is, its labels and what it says.
WANTED = [
    ("NoRoomForVolume", "35m", "37m", 'severity: page, pool: Daily, drive: "1"',
     "there is no room for another volume of pool Daily on drive 1"),
    ("RoomEndsSoon", "90m", "92m", 'severity: ticket, pool: Daily, drive: "1"',
     "the room of pool Daily on drive 1 ends in 6.5 days"),
    ("VolumeDamaged", "30m", "31m", "severity: page, pool: Daily",
     "1 volumes of pool Daily are damaged; the keeper''s log names the jobs"),
    ("KeptJobNotWhole", "30m", "31m", "severity: page", "2 kept jobs can''t be restored whole"),
    ("FoldersDiffer", "90m", "92m", "severity: ticket",
     "folders, daemon and catalogue differ in 3 places; the keeper''s log names them"),
    ("KeeperStands", "74m", "77m", "severity: page", "the keeper has done no round for 17m 0s"),
    ("BackupIsOld", "30m", "31m", "severity: ticket, client: www, job: home",
     "the last whole backup home of www is 2d 0h 1m 0s old"),
]


def run(checks, folder):
    used = set(re.findall(r"sdd_keeper_\w+", ALERTS.read_text()))
    checks.same("the figures of the alerts are the keeper's", used - set(HELP), set())
    if not shutil.which("promtool"):
        print("not run: the alerts, for want of promtool (tools/packages)")
        return
    wanted = "".join(
        f"      - {{eval_time: {before}, alertname: {name}, exp_alerts: []}}\n"
        f"      - eval_time: {after}\n        alertname: {name}\n"
        f"        exp_alerts: [{{exp_labels: {{{labels}}}, exp_annotations: {{summary: '{text}'}}}}]\n"
        for name, before, after, labels, text in WANTED)
    file = folder / "tests.yml"
    file.write_text(TESTS.format(alerts=ALERTS, wanted=wanted))
    for words in (["check", "rules", ALERTS], ["test", "rules", file]):
        run = subprocess.run(["promtool", *words], capture_output=True, text=True, timeout=120)
        checks.check(f"promtool {words[0]} {words[1]}", run.returncode == 0, run.stdout[-1500:], run.stderr[-1500:])
    broken = folder / "broken.yml"
    broken.write_text(file.read_text().replace("ends in 6.5 days", "ends in 7 days"))
    run = subprocess.run(["promtool", "test", "rules", broken], capture_output=True, text=True, timeout=120)
    checks.check("it tells what is other", run.returncode != 0, run.stdout)

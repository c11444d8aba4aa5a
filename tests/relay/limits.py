"""What a name may of bytes and sessions a day and of talks at once: in one talk, in several, and after a relay was killed."""
import signal as signals
import threading
import time

import fake
from daemon import until
from fake import line
from held import Always, Places, table
from relay.store import Store


class Limits(Places):
    """Each in a place of its own."""

    def run(self):
        for part in (self.limit_in_session, self.limits_side_by_side, self.killed, self.sessions_of_a_day, self.talks_at_once):
            part()
        self.checks.group = "limits"

    def limit_in_session(self):
        """The bytes of a day end in a session: it is cancelled, and told so; what was closed before stays."""
        names = table("www", "client", bytes_a_day=100_000)
        with self.place("limit", names=names) as (place, server), place.relayed("www") as client:
            ticket = client.open()
            client.ask(f"append data {ticket}")
            self.checks.same("what fits", client.ask("1 2 0", "x" * 40_000, -1, -1), "3000 OK append data")
            client.ask(f"append data {ticket}")
            client.send("1 2 0", "x" * 40_000, "x" * 40_000, "console unmount 1", -1, "1 2 0", "y", -1)
            client.near.settimeout(1)
            try:
                self.checks.check("nothing is said before the end of the phase", False, client.receive())
            except TimeoutError:
                client.near.settimeout(30)
            self.checks.same("the refusal", client.ask(-1), "3933 In use")
            self.checks.same("no session goes on", server.talk().taken[-1][2], b"console cancel 1")
            came = [got for due, _, got, _ in server.talk().taken if due == fake.RECORD and isinstance(got, bytes)]
            self.checks.same("what came", list(map(len, came)), [40_000, 40_000])
            self.checks.same("the talk goes on", client.ask("append end session 1"), "3000 OK end")
            self.checks.check("an open in what is left", isinstance(client.open(), int))
            client.ask("append data 2")
            self.checks.same("what still fits", client.ask("1 2 0", "x" * 19_000, -1, -1), "3000 OK append data")
            client.send(-4)
            client.ended()
            for told in ("refused a record: the bytes of the day are used up", "99000 bytes were appended, 0 read", "ended: finished"):
                is_told = any(line.endswith(f" www: {told}") for line in place.logged())
                self.checks.check(f"the log has the name, and: {told}", is_told, place.logged())
        store = Store(place.state)
        self.checks.same("counted", store.counted("www", time.strftime("%Y-%m-%d", time.gmtime()))[0], 99_036)
        store.close()

    def limits_side_by_side(self):
        """Several talks of a name share its bytes: together they never pass the limit, and use nearly all of it."""
        limit, size = 3_000_000, 10_000
        with self.place("limits side by side", names=table("www", "client", bytes_a_day=limit)) as (place, server):
            clients = [place.relayed("www") for _ in range(5)]
            refused = []

            def work(client):
                ticket = client.open()
                while client.ask(f"append data {ticket}") == "3000 OK data":
                    said = client.ask("1 2 0", *["z" * size] * 7, -1, -1)
                    if said != "3000 OK append data":
                        refused.append(said)
                        break
                client.send(-4)
                client.ended()

            threads = [threading.Thread(target=work, args=(client,)) for client in clients]
            for thread in threads:
                thread.start()
            for thread in threads:
                thread.join(60)
            for client in clients:
                client.__exit__()
            came = sum(len(got) + 12 for one in server.talks for due, _, got, _ in one.taken
                       if due == fake.RECORD and isinstance(got, bytes))
            self.checks.same("all are refused in the end", refused, ["3933 In use"] * 5)
            self.checks.check("within the limit, and near it", limit * 0.9 < came <= limit, came)
            store = Store(place.state)
            self.checks.same("counted", store.counted("www", time.strftime("%Y-%m-%d", time.gmtime()))[0], came)
            store.close()

    def killed(self):
        """A relay that is killed leaves its place free, and no less counted than came."""
        names = table("www", "client", bytes_a_day=1_000_000, talks=1)
        with self.place("killed", names=names) as (place, server):
            for number, end in ((1, signals.SIGKILL), (2, signals.SIGTERM)):
                with place.relayed("www") as client:
                    ticket = client.open()
                    client.ask(f"append data {ticket}")
                    self.checks.same("in", client.ask("1 2 0", "x" * 30_000, -1, -1), "3000 OK append data")
                    client.process.send_signal(end)
                    client.process.wait(30)
                self.checks.check("the daemon's talk ends", until(lambda: server.talk(number - 1).ended_by))
                store = Store(place.state)
                used = store.counted("www", time.strftime("%Y-%m-%d", time.gmtime()))[0]
                self.checks.check(f"counted after {end.name}", used >= 30_012 * number, used)
                self.checks.check("its session is known", store.is_own("www", (5000, ticket)))
                store.close()

    def sessions_of_a_day(self):
        """Those that were opened count, and those that the daemon refused don't."""
        class Refuses(Always):
            opens = 0

            def of_open(self):
                self.opens += 1
                return line("3911 No free lane") if self.opens in (2, 3) else super().of_open()

        with self.place("sessions refused", Refuses, table("www", "client", sessions_a_day=2)) as (place, _):
            with place.relayed("www") as client:
                no_lane = "3911 No free lane"
                self.checks.same("two", [client.open() for _ in range(5)], [1, no_lane, no_lane, 2, "3933 In use"])
        with self.place("sessions", names=table("www", "client", sessions_a_day=3)) as (place, _):
            with place.relayed("www") as client:
                self.checks.same("three", [client.open() for _ in range(4)], [1, 2, 3, "3933 In use"])
            with place.relayed("www") as client:
                self.checks.same("in another talk", client.open(), "3933 In use")

    def talks_at_once(self):
        with self.place("talks", names=table("www", "client", talks=2) + table("sink", "append-only")) as (place, server):
            with place.relayed("www") as one, place.relayed("www") as two:
                self.checks.check("two", all(isinstance(each.open(), int) for each in (one, two)))
                with place.relayed("www") as three:
                    self.checks.same("a third", (three.receive(), three.receive()), ("3933 In use", None))
                    self.checks.check("its status", three.ended()[0] == 1)
                with place.relayed("sink") as other:
                    self.checks.check("another name", isinstance(other.open(), int))
                one.near.close()
                one.process.wait(30)
                with place.relayed("www") as four:
                    self.checks.check("once one is over", isinstance(four.open(), int))
            self.checks.same("the daemon's talks", len(server.talks), 4)


def run(checks, folder):
    Limits(checks, folder).run()

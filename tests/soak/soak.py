"""Forty responders for some time: kills them, starts them again, takes links down and up, samples who answers for which name, and judges.

NET FOLDER RESPONDER SECONDS SEED COUNT, on the watching machine, COUNT + 1. Five machines after another want one name, in turn an instance's and a host's,
each with data of its own; the other name of each is its own. The last of each five begins last, and is never killed, so that its memory has time to grow. A
line for each fault goes to standard error; then it ends all, judges by judge.py, and fails where something is wrong."""

import pathlib
import random
import re
import select
import signal
import socket
import struct
import subprocess
import sys
import time

import judge
from ask import PERIOD, ask_all, querier, query

PORT, EACH, SAMPLE, PROMPT = 5353, 5, 0.5, 0.1


def address(machine):
    return f"10.79.0.{machine}"


def now():
    """Milliseconds since 1970, as the responders tell them."""
    return time.time() * 1000


def group(machine):
    return (machine - 1) // EACH


def contended(machine):
    """The name that it wants with others, as it is asked for."""
    which = group(machine)
    return f"booth-{which}._voice._tcp.local/SRV" if which % 2 == 0 else f"dock-{which}.local/A"


def labels(machine):
    """The instance's and the host's."""
    which = group(machine)
    return (f"booth-{which}", f"own-{machine}") if which % 2 == 0 else (f"own-{machine}", f"dock-{which}")


class Life:
    """One run of a responder, from its start to its end."""

    def __init__(self, soak, machine, number):
        self.machine, self.killed, self.status, self.memory = machine, None, None, []
        self.file = soak.folder / f"life-{machine}-{number}"
        instance, host = labels(machine)
        command = ["ip", "netns", "exec", f"{soak.net}-{machine}", soak.responder, "--interface", address(machine), "--service", "_voice._tcp"]
        command += ["--ipv4-only", "--instance", instance, "--host", host, "--port", str(4000 + machine)]
        with self.file.open("wb") as output:
            self.process = subprocess.Popen(command, stdin=subprocess.DEVNULL, stdout=output, stderr=subprocess.STDOUT)
        self.begun = now()

    def kill(self):
        self.process.send_signal(signal.SIGKILL)
        self.process.wait()
        self.killed = now()

    def has_died(self):
        """Whether it ended, and nobody killed it."""
        return self.killed is None and self.process.poll() is not None

    def measure(self):
        """Its memory in KiB, from three seconds after its start on; page by page, since VmRSS of its status is told in steps of many pages."""
        if now() - self.begun < 3000 or self.process.poll() is not None:
            return
        found = re.search(r"^Rss:\s+(\d+)", pathlib.Path(f"/proc/{self.process.pid}/smaps_rollup").read_text(), re.MULTILINE)
        self.memory += [int(found[1])] if found else []

    def stop(self):
        """As a user would: it says goodbye, and ends with status 0."""
        self.process.terminate()
        self.killed = now()

    def end(self):
        try:
            self.status = self.process.wait(timeout=10)
        except subprocess.TimeoutExpired:
            self.process.kill()
            self.status = "none within 10 s"


class Samples:
    """Who answers for which name, as a plain resolver is answered, which changes nothing."""

    def __init__(self, machines):
        self.socket = socket.socket(socket.AF_INET, socket.SOCK_DGRAM)
        self.socket.bind((address(len(machines) + 1), 0))
        self.machines, self.number, self.asked, self.rounds = machines, 0, {}, []

    def ask(self):
        self.rounds.append((now(), {}))
        self.asked = {number: each for number, each in self.asked.items() if each[0] > now() - 1000}
        for machine in self.machines:
            self.number = self.number % 65535 + 1
            self.asked[self.number] = (now(), machine, self.rounds[-1][1])
            try:
                self.socket.sendto(query(self.number, [contended(machine)]), (address(machine), PORT))
            except OSError:
                pass  # its link is down

    def hear(self):
        try:
            packet, (source, _) = self.socket.recvfrom(9000)
        except OSError:
            return
        sent, machine, answered = self.asked.get(struct.unpack_from("!H", packet)[0], (0, 0, None))
        if source == address(machine) and struct.unpack_from("!H", packet, 6)[0] and now() - sent <= 1000 * PROMPT:
            answered.setdefault(contended(machine), set()).add(machine)


class Soak:
    def __init__(self, net, folder, responder, seconds, seed, count):
        self.net, self.folder, self.responder = net, pathlib.Path(folder), responder
        self.random, self.seconds, self.machines = random.Random(int(seed)), float(seconds), range(1, int(count) + 1)
        self.lives, self.current, self.starts, self.flaps, self.ups = [], {}, [], [], {}
        self.died = []
        self.samples = Samples(self.machines)
        self.querier = querier(address(len(self.machines) + 1))

    def tell(self, what):
        print(f"{now() - self.begun:8.0f} ms  {what}", file=sys.stderr, flush=True)

    def start(self, machine):
        life = Life(self, machine, len(self.lives))
        self.lives.append(life)
        self.current[machine] = life

    def is_kept(self, machine):
        return machine % EACH == 0

    def holders(self, name):
        """Who answered last for it."""
        answered = [answered for _, answered in self.samples.rounds[-2:] if name in answered]
        return answered[-1][name] if answered else set()

    def kill_some(self):
        """Some of those that want one name, mostly with its holder."""
        name = contended(self.random.choice(self.machines))
        self.kill_of(name, self.holders(name) if self.random.random() < 0.7 else set())

    def kill_of(self, name, more):
        """Some of those that want a name, and these; all start again together, or each at a time of its own."""
        running = [m for m in self.machines if contended(m) == name and m in self.current and not self.is_kept(m)]
        others = [m for m in running if m not in self.holders(name)]
        victims = set(self.random.sample(others, self.random.randint(0, len(others)))) | more & set(running)
        together = self.random.uniform(0, 1.5) if self.random.random() < 0.5 else None
        for machine in sorted(victims):
            self.current.pop(machine).kill()
            self.starts.append((time.time() + (self.random.uniform(0, 1.5) if together is None else together), machine))
        if victims:
            self.tell(f"killed {sorted(victims)}")

    def set_link(self, machine, word):
        subprocess.run(["ip", "-n", f"{self.net}-bridges", "link", "set", f"to-{machine}", word], check=True)

    def take_down(self):
        """A machine's link, mostly a holder's; then others that want its name start anew, and may take it meanwhile."""
        machine = self.random.choice(self.machines)
        if self.random.random() < 0.7:
            machine = self.random.choice(sorted(self.holders(contended(machine))) or [machine])
        if machine in self.ups:
            return
        self.ups[machine] = (time.time() + self.random.uniform(0.2, 4), now())
        self.set_link(machine, "down")
        self.tell(f"link {machine} down")
        if self.random.random() < 0.7:
            self.kill_of(contended(machine), set())

    def take_up(self, machine):
        _, down = self.ups.pop(machine)
        self.set_link(machine, "up")
        self.flaps.append((machine, down, now()))

    def look(self):
        """What is due, and whether all run."""
        at = time.time()
        for start in [each for each in self.starts if each[0] <= at]:
            self.starts.remove(start)
            self.start(start[1])
        for machine in [m for m, (up, _) in self.ups.items() if up <= at]:
            self.take_up(machine)
        for machine, life in list(self.current.items()):
            if life.has_died():
                life.killed = now()
                self.died.append(life)
                self.tell(f"{machine} died: {life.file.read_text().splitlines()[-1:]}")
                self.start(machine)

    def wait(self, until):
        while (left := until - time.time()) > 0:
            if select.select([self.samples.socket, self.querier], [], [], left)[0]:
                self.samples.hear()
            self.querier.setblocking(False)
            try:
                self.querier.recv(9000)
            except OSError:
                pass

    def run(self):
        self.begun = now()
        self.starts = [(time.time() + self.random.uniform(0, 2) + 3 * self.is_kept(machine), machine) for machine in self.machines]
        end, settled = time.time() + self.seconds, time.time() + self.seconds - 4
        due = dict.fromkeys(("sample", "ask", "fault", "measure"), time.time())
        due["fault"] += 6
        while (at := time.time()) < end:
            self.look()
            if at >= due["sample"]:
                due["sample"] = at + SAMPLE
                self.samples.ask()
            if at >= due["ask"]:
                due["ask"] = at + PERIOD
                ask_all(self.querier, sorted(set(map(contended, self.machines))))
            if at >= due["fault"] and at < settled:
                due["fault"] = at + self.random.expovariate(1.4)
                self.random.choices((self.kill_some, self.take_down), (7, 3))[0]()
            if at >= due["measure"]:
                due["measure"] = at + 10
                self.measure()
            self.wait(time.time() + 0.02)
        self.measure()
        for machine in list(self.ups):
            self.take_up(machine)
        for life in self.current.values():
            life.stop()
        for life in self.current.values():
            life.end()

    def measure(self):
        for life in self.current.values():
            life.measure()


def main():
    soak = Soak(*sys.argv[1:])
    try:
        soak.run()
    finally:
        for life in soak.lives:
            life.process.kill()
    sys.exit(judge.judge(soak, contended, labels))


if __name__ == "__main__":
    main()

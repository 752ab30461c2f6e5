"""The instances of a run: what each is at first and after its change, and which ones change, say goodbye and fall silent. Publishers and judge go by it."""

SERVICE = "_voice._tcp.local."
CHANGED_EVERY = 10  # of so many that stay on the first machine, one changes
LEAVING_EVERY = 3  # of so many one says goodbye
SILENT_TTL = 20  # seconds that the PTR of the silent one lives; the least that python-zeroconf takes for another's is 1125


class Instance:
    def __init__(self, number, changed=False):
        self.name = f"booth-{number}"
        self.host = f"dock-{number}.local"
        self.port = 4000 + number + (1000 if changed else 0)
        self.txt = f"room={number}{' later' if changed else ''}"

    def resolved(self):
        return self.name, (self.host, self.port, self.txt)


def numbers(count):
    return range(count)


def silent(count):
    """The one on the second machine, which is killed."""
    return count - 1


def published(count):
    """Those on the first machine."""
    return range(count - 1)


def changing(count):
    return [number for number in published(count) if number % CHANGED_EVERY == 0]


def leaving(count):
    return [number for number in published(count) if number % LEAVING_EVERY == 1]


def lists(count):
    """The right list of each phase, by name: host, port and TXT."""
    at_first = dict(Instance(number).resolved() for number in numbers(count))
    changed = at_first | dict(Instance(number, True).resolved() for number in changing(count))
    left = {name: data for name, data in changed.items() if name not in {Instance(number).name for number in leaving(count)}}
    end = {name: data for name, data in left.items() if name != Instance(silent(count)).name}
    return {"appear": at_first, "change": changed, "leave": left, "silent": end}

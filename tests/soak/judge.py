"""Judges a soak: by what each responder printed of its claims, and by the samples. When may two hold one name with different data?

Never, while what demand 3 asks is met (docs/DEMAND-3.md): a killed responder holds nothing from then on, and one that is started again is a new one. A link
that is down breaks it for that machine: two may hold until the link is up and one has heard a multicast of the other (links joined), which the queries every
1.1 s bring about, within MENDED ms. And so does the machine on which all run, where it is too busy: a packet that took over 124 ms, which the proof does not
bear, or steps of a responder that were over 50 ms late. What is so is counted apart; what is left is a failure.

A name that nobody else wants has to be held within IN_TIME ms of the start, or of its link's coming back where that is later; where the machine was too busy
meanwhile, for anyone, it is counted apart too."""

import re

LINE = re.compile(r"^ *(\d+) ms  (waiting|probing|deferred|held|lost|down) +(\S+)$")
BEGUN = re.compile(r"^(?:begun| *\d+ ms  anew) +on .+ at (\d+), start draw (\d+) ms$")
MENDED, PROBING, STEPS, LATE, IN_TIME, SLACK = 2500, 1300, 750, 50, 1200, 300


class Holding:
    """One responder holds one name for a time."""

    def __init__(self, machine, name, since, until, is_late, is_begun_late):
        self.machine, self.name, self.since, self.until, self.is_late, self.is_begun_late = machine, name, since, until, is_late, is_begun_late


def changes(life):
    """What it printed, in order: (time, state, name) of a claim or a link, and (time, "begun", draw) of each start, one whenever its link came back."""
    told, zero = [], None
    for line in life.file.read_text().splitlines():
        if found := BEGUN.match(line):
            told.append((int(found[1]), "begun", int(found[2])))
        elif found := LINE.match(line):
            if not told:
                raise ValueError(f"{life.file}: it does not say when it began")
            # what it tells first is of its first start; its clock ran before that where its link was down
            zero = zero or told[0][0] - int(found[1])
            told.append((zero + int(found[1]), found[2], found[3]))
    return told


def holdings(life):
    """Its holdings; a holding is late where the three waits between probing and held took over 50 ms more than they should, so that a step was late, and begun
    late where the wait before it first probed did, which is the start's draw."""
    told, start = changes(life), 0
    for at, (since, state, name) in enumerate(told):
        if state == "begun":
            start = at
        if state == "held":
            until = next((time for time, word, other in told[at + 1 :] if other == name or word in ("down", "begun")), life.killed)
            begun, _, draw = told[start]
            probed = [time for time, word, other in told[start:at] if (word, other) == ("probing", name)] or [since]
            yield Holding(life.machine, name, since, until, since - probed[-1] > STEPS + LATE, probed[0] - begun > draw + LATE)


def is_down(flaps, machines, time):
    """Whether the link of one was down then, or up again only so long ago that the two need not have heard each other."""
    return any(machine in machines and down <= time <= up + MENDED for machine, down, up in flaps)


def is_busy(late, pair, since):
    """Whether a packet of one to the other was late while the later one probed, or a step of either."""
    machines = {holding.machine for holding in pair}
    between = any(since - PROBING <= time <= since and {one, other} <= machines for time, one, other in late)
    return between or any(holding.is_late for holding in pair)


def overlaps(all_holdings):
    """Each two of different machines that hold one name at once, and from when to when."""
    for name in sorted({holding.name for holding in all_holdings}):
        same = sorted((h for h in all_holdings if h.name == name), key=lambda h: h.since)
        for at, one in enumerate(same):
            for other in same[at + 1 :]:
                since, until = max(one.since, other.since), min(one.until, other.until)
                if since < until and one.machine != other.machine:
                    yield (one, other), since, until


def excuse(soak, late, pair, since, until):
    """Why two hold from a time on: 'link', 'busy', or '' for no reason. A link that was down excuses every moment of it."""
    machines = {holding.machine for holding in pair}
    if all(is_down(soak.flaps, machines, time) for time in range(int(since), int(until) + 1, 10)) and is_down(soak.flaps, machines, until):
        return "link"
    return "busy" if is_busy(late, pair, since) else ""


def late_packets(folder):
    words = (line.split() for line in (folder / "relay").read_text().splitlines() if line.startswith("late "))
    return [(int(time), int(one), int(other)) for _, time, one, other, _ in words]


def told_of_two(soak, all_holdings, late):
    found = [(excuse(soak, late, *each), each) for each in overlaps(all_holdings)]
    for why, (pair, since, until) in found:
        if why != "link":
            machines = " and ".join(str(holding.machine) for holding in pair)
            print(f"  {machines} both held {pair[0].name} for {until - since:.0f} ms, from {since - soak.begun:.0f} ms on: {why or 'NOT EXCUSED'}")
    of = lambda word: [until - since for why, (_, since, until) in found if why == word]
    print(
        f"two holders at once: {len(of('link'))} times by a link that was down, longest {max(of('link'), default=0):.0f} ms; "
        f"{len(of('busy'))} times as the machine was too busy; {len(of(''))} times without excuse"
    )
    return len(of(""))


def told_of_samples(soak, all_holdings, late):
    """Of the rounds in which two answered for one name, those that no two holders, excused above, explain."""
    two, wrong = 0, 0
    for time, answered in soak.samples.rounds:
        for name, machines in answered.items():
            if len(machines) > 1:
                two += 1
                near = [each for each in overlaps([h for h in all_holdings if h.machine in machines]) if each[1] - 200 <= time <= each[2] + 200]
                wrong += not near and not is_down(soak.flaps, machines, time)
    answers = sum(len(machines) for _, answered in soak.samples.rounds for machines in answered.values())
    print(f"samples: {len(soak.samples.rounds)} rounds, {answers} answers; two answered for one name {two} times, {wrong} of them not explained by the above")
    return wrong + (answers == 0)


def times_up(soak, life):
    """From when to when it ran with its link up, each time; the first from its own line on, where it says when it began."""
    flaps = sorted((down, up) for machine, down, up in soak.flaps if machine == life.machine and life.begun < up and down < life.killed)
    ends = [down for down, _ in flaps] + [life.killed]
    begun = next((time for time, _, _ in changes(life)), None)
    first = begun if begun and begun < ends[0] else life.begun
    return [(since, until) for since, until in zip([first] + [up for _, up in flaps], ends) if since < until]


def first_of(of_own, since, until):
    """The first holding in a time."""
    return next((holding for holding in of_own if holding.since < until and since < holding.until), None)


def is_busy_between(late, holding, since, until):
    """Whether the machine was too busy in a time that should have ended with this holding: a packet of anyone was late, or a step of this responder."""
    return any(since <= time <= until for time, _, _ in late) or holding is not None and (holding.is_late or holding.is_begun_late)


def told_of_own_names(soak, labels, late):
    """Each name that nobody else wants is held in time, whenever its responder runs and its link is up."""
    took, busy, wrong = [], 0, 0
    for life in soak.lives:
        own = next(label for label in labels(life.machine) if label.startswith("own-")) + "."
        of_own = [holding for holding in holdings(life) if holding.name.startswith(own)]
        for since, until in times_up(soak, life):
            holding = first_of(of_own, since, until)
            held = max(holding.since, since) if holding else until
            took += [held - since] if holding else []
            if held - since > IN_TIME:
                is_excused = is_busy_between(late, holding, since, held)
                busy, wrong = busy + is_excused, wrong + (not is_excused)
                word, why = "held" if holding else "not held", "busy" if is_excused else "NOT EXCUSED"
                print(f"  {life.machine}, up from {since - soak.begun:.0f} ms on: its own name {word} after {held - since:.0f} ms: {why}")
    mean = sum(took) / max(len(took), 1)
    print(
        f"names that nobody else wants: held {len(took)} times, {mean:.0f} ms after the start or the link's coming back in the mean, "
        f"{max(took, default=0):.0f} ms at most; not within {IN_TIME} ms: {busy} times as the machine was too busy, {wrong} times without excuse"
    )
    return wrong + (not took)


def told_of_memory(soak):
    grown = [(life.memory[-1] - life.memory[0], life) for life in soak.lives if len(life.memory) > 1]
    most = max(grown, key=lambda each: each[0], default=None)
    if most is None:
        print("memory: no responder lived long enough to be measured twice")
        return 1
    longest = max(life.killed - life.begun for _, life in grown) / 1000
    first, last = most[1].memory[0], most[1].memory[-1]
    print(f"memory: {len(grown)} measured twice or more, up to {longest:.0f} s; the most that one grew by is {most[0]} KiB, from {first} to {last} KiB")
    return sum(grew > SLACK for grew, _ in grown)


def judge(soak, contended, labels):
    late = late_packets(soak.folder)
    wanted = {contended(machine).rsplit("/", 1)[0] + "." for machine in soak.machines}
    wanted |= {name.rstrip(".") for name in wanted}
    all_holdings = [h for life in soak.lives for h in holdings(life)]
    of_contended = [h for h in all_holdings if h.name in wanted]
    unheld = {contended(m).rsplit("/", 1)[0] for m in soak.machines} - {h.name.rstrip(".") for h in of_contended}
    ended = [life for life in soak.lives if life.status is not None]
    badly = [life for life in ended if life.status != 0]
    killed = len(soak.lives) - len(ended) - len(soak.died)
    print(f"faults: {killed} killed, each started again, and {len(soak.flaps)} links taken down and up, in {soak.seconds:.0f} s")
    print(f"names that five want: {len(wanted) // 2}, held {len(of_contended)} times; never held: {sorted(unheld) or 'none'}")
    failures = told_of_own_names(soak, labels, late) + len(unheld)
    failures += told_of_two(soak, of_contended, late) + told_of_samples(soak, of_contended, late)
    failures += told_of_memory(soak)
    for life in soak.died + badly:
        print(f"  {life.machine} ended by itself, status {life.process.returncode}: {life.file.read_text().splitlines()[-3:]}")
    print(f"programs that died: {len(soak.died)}; stopped at the end with another status than 0: {len(badly)}")
    failures += len(soak.died) + len(badly)
    return 1 if failures else 0

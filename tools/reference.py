#!/usr/bin/env python3
"""A second engine, written from docs/RULES.md alone and in another way than the first: jobs are kept as logs of
operations, and whoever is taken back is left out when all logs are replayed from the first words. It makes the stories
that the program `trials` plays, and what it must print for each.

    tools/reference.py stories > crates/trials/data/stories.txt
    tools/reference.py answers < crates/trials/data/stories.txt > crates/trials/stdout
"""
import random
import sys

WRAP = 1 << 32
# A mode is what it has and what it may do below, out of the rights none, reads, adds, everything.
NONE, READS, ADDS, ALL = "0", "R", "A", "W"
COUNTING = ["00", "0R", "0A", "0W", "RR", "AA", "RW", "AW", "WW"]
GRAY = ["00", "0R", "0W", "RR", "RW", "WW"]


def join_rights(a, b):
    if a == b or b == NONE:
        return a
    return b if a == NONE else ALL


def conflict(a, b):
    return a != NONE and b != NONE and not (a == b and a in (READS, ADDS))


class System:
    def __init__(self, letter):
        self.modes = GRAY if letter == "g" else COUNTING
        self.rights = {"r": READS, "s": ALL, "a": ALL if letter == "g" else ADDS}

    def join(self, a, b):
        return join_rights(a[0], b[0]) + join_rights(a[1], b[1])

    def stand(self, a, b):
        return not conflict(a[0], b[1]) and not conflict(b[0], a[1])

    def full(self, kind):
        return self.rights[kind] * 2

    def intent(self, kind):
        return NONE + self.rights[kind]


KIND = {"r": "r", "m": "r", "s": "s", "a": "a"}


class Job:
    def __init__(self):
        self.state, self.modes, self.log, self.wants = "working", {}, [], None


class Engine:
    def __init__(self, letter, places):
        self.system, self.places, self.parents = System(letter), places, None

    def lay(self, parents, words):
        if self.parents is not None:
            return "refused14"
        n = len(parents)
        if n != len(words) or not 1 <= n <= 256:
            return "refused10"
        if parents[0] != 0 or any(parents[g] >= g for g in range(1, n)):
            return "refused11"
        depth = [1] * n
        for g in range(1, n):
            depth[g] = depth[parents[g]] + 1
        if max(depth) > 8:
            return "refused12"
        if self.places < n:
            return "refused13"
        self.parents, self.first, self.jobs, self.committed = parents, list(words), [], []
        return "done"

    def path(self, g):
        return [g] if g == 0 else self.path(self.parents[g]) + [g]

    def records(self, g):
        inner = {self.parents[h] for h in range(1, len(self.parents))}
        return [r for r in range(len(self.parents)) if r not in inner and g in self.path(r)]

    # the words when the committed jobs, and then the open ones in order of age, run alone
    def words(self):
        words = list(self.first)
        open_jobs = [j for j in self.jobs if j.state in ("working", "waiting")]
        for job in self.committed + open_jobs:
            for letter, g, word in job.log:
                for r in self.records(g):
                    if letter == "s":
                        words[r] = word
                    elif letter == "a":
                        words[r] = (words[r] + word) % WRAP
        return words

    def wound(self, job):
        job.state, job.modes, job.log, job.wants = "wounded", {}, [], None

    # takes the locks; whether all were had
    def walk(self, number, kind, g):
        me = self.jobs[number - 1]
        for x in self.path(g):
            mode = me.modes.get(x, "00")
            if self.system.join(mode, self.system.full(kind)) == mode:
                return True
            part = self.system.full(kind) if x == g else self.system.intent(kind)
            target = self.system.join(mode, part)
            if target == mode:
                continue
            held_up = False
            for i, other in enumerate(self.jobs, 1):
                if other is me or self.system.stand(other.modes.get(x, "00"), target):
                    continue
                if i < number:
                    held_up = True
                else:
                    self.wound(other)
            if held_up:
                return False
            me.modes[x] = target
        return True

    def attempt(self, number, operation):
        me, (letter, g, word) = self.jobs[number - 1], operation
        if not self.walk(number, KIND[letter], g):
            me.state, me.wants = "waiting", operation
            return "waits"
        me.state, me.wants = "working", None
        words = self.words()
        figures = [words[r] for r in self.records(g)]
        me.log.append(operation)
        if letter == "r":
            return "read%d/%d" % (sum(figures), len(figures))
        if letter == "m":
            return "mean%d" % ((2 * sum(figures) + len(figures)) // (2 * len(figures)))
        return "done"

    def call(self, letter, number, g=None, word=None):
        if self.parents is None:
            return "refused1"
        alive = [j for j in self.jobs if j.state != "ended"]
        if letter == "o":
            if len(alive) >= 16:
                return "refused2"
            self.jobs.append(Job())
            return "job%d" % len(self.jobs)
        if letter == "?":
            if g >= len(self.parents):
                return "refused7"
            held = [j.modes[g] for j in self.jobs if j.modes.get(g, "00") != "00"]
            group = "00"
            for mode in held:
                group = self.system.join(group, mode)
            return "head%d/%d" % (self.system.modes.index(group), len(held))
        if not 1 <= number <= len(self.jobs) or self.jobs[number - 1].state == "ended":
            return "refused4"
        job = self.jobs[number - 1]
        if letter in "rmsagc" and job.state == "wounded":
            return "refused5"
        if letter in "rmsac" and job.state == "waiting":
            return "refused6"
        if letter in "rmsa" and g >= len(self.parents):
            return "refused7"
        if letter == "g" and job.state != "waiting":
            return "refused8"
        if letter == "w" and job.state != "wounded":
            return "refused9"
        if letter == "g":
            return self.attempt(number, job.wants)
        if letter in "rmsa":
            return self.attempt(number, (letter, g, word))
        if letter == "w":
            job.state = "working"
        elif letter == "c":
            job.state, job.modes = "ended", {}
            self.committed.append(job)
        else:
            job.state, job.modes, job.log = "ended", {}, []
        return "done"


def play(story):
    entries = story.split(" ")
    letter, n = entries[0], int(entries[1])
    parents = [int(e) for e in entries[2:2 + n]]
    words = [int(e) for e in entries[2 + n:2 + 2 * n]]
    engine = Engine(letter, 256)
    said = [engine.lay(parents, words)]
    for e in entries[2 + 2 * n:]:
        head, _, word = e[1:].partition("=")
        job, _, granule = head.partition(".")
        if e == "l":
            said.append(engine.lay(parents, words))
        elif e[0] == "?":
            said.append(engine.call("?", 0, int(job)))
        else:
            said.append(engine.call(e[0], int(job or 0), int(granule or 0), int(word or 0) % WRAP))
    words = engine.words() if engine.parents is not None else []
    return " ".join(said + ["end"] + [str(w) for w in words])


def tree(rng):
    n = rng.choice([1, 2, 3, 4, 6, 8, 12])
    return [0] + [rng.randrange(g) for g in range(1, n)]


# What a caller who follows the answers would ask next, and now and then something else.
LIKELY = {"working": "rrmssaaaaac", "waiting": "ggggggrx", "wounded": "wwwwwwrc", "ended": "rgwx"}


def invent(rng):
    letter, parents = rng.choice("gn"), tree(rng)
    n = len(parents)
    words = [rng.choice([0, 1, 5, 20, WRAP - 1]) for _ in range(n)]
    engine, calls = Engine(letter, 256), []
    engine.lay(parents, words)
    for _ in range(rng.choice([8, 16, 24, 32])):
        alive = [i for i, j in enumerate(engine.jobs, 1) if j.state != "ended"]
        asks = rng.random()
        if len(alive) < 2 or asks < 0.08:
            what, job = "o", 0
        elif asks < 0.16:
            what, job = rng.choice("????l"), 0
        else:
            job = rng.choice(alive) if rng.random() < 0.95 else rng.randint(0, len(engine.jobs) + 1)
            state = engine.jobs[job - 1].state if 1 <= job <= len(engine.jobs) else "ended"
            what = rng.choice(LIKELY[state])
        granule = rng.randrange(n + 1) if rng.random() < 0.05 else rng.randrange(n)
        word = rng.choice([0, 1, 3, 7, WRAP - 2])
        if what != "l":
            engine.call(what, job, granule, word)
        if what in "ol":
            calls.append(what)
        elif what == "?":
            calls.append("?%d" % granule)
        elif what in "rm":
            calls.append("%s%d.%d" % (what, job, granule))
        elif what in "sa":
            calls.append("%s%d.%d=%d" % (what, job, granule, word))
        else:
            calls.append("%s%d" % (what, job))
    return " ".join([letter, str(n)] + [str(p) for p in parents] + [str(w) for w in words] + calls)


def stories():
    six = "6 0 0 0 1 1 2 0 0 0 10 20 30"
    day = "o o a1.3=5 a2.3=7 r2.1 c1 g2 o s3.5=1 s2.2=4 c3 c2 w3 m3.0 x3"
    yield "n %s %s" % (six, day)
    yield "g %s %s" % (six, day)
    yield "n 2 0 1 0 0 o"
    yield "n 9 0 0 1 2 3 4 5 6 7 0 0 0 0 0 0 0 0 0 o"
    yield "n 1 0 4294967295 o a1.0=5 r1.0 x1 o r2.0 l"
    yield "n 1 0 0 " + " ".join(["o"] * 17 + ["c1", "o"])
    rng = random.Random(1976)
    for _ in range(240):
        yield invent(rng)


if __name__ == "__main__":
    if sys.argv[1:] == ["stories"]:
        for story in stories():
            print(story)
    elif sys.argv[1:] == ["answers"]:
        for line in sys.stdin:
            print(play(line.rstrip("\n")))
    else:
        sys.exit(__doc__)

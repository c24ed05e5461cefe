"""The lines that nodes are told, as they are drawn, and what they answer."""

# So many jobs run at once at most, since each is a process; and this number is never submitted.
MOST_JOBS = 6
NO_JOB = 255


class Lines:
    """Lines for the masters, agents and applications of a cluster."""

    def __init__(self, shape, chance):
        self.shape, self.chance, self.next_job = shape, chance, 0

    def machine(self):
        return self.chance.randrange(len(self.shape.machines))

    def has_jobs(self):
        return self.next_job < NO_JOB

    def submission(self, epoch):
        """A new job. A number is never used again, also where its line was lost."""
        number, self.next_job = self.next_job, self.next_job + 1
        count = self.chance.choice([1, 1, 2, 3])
        units = [f"{self.chance.randrange(10)} {self.chance.randint(0, 40)} {self.chance.randint(1, 150)}{self.most()}" for _ in range(count)]
        return f"submit {epoch} {number} {self.chance.randrange(len(self.shape.groups))} {' / '.join(units)}"

    def most(self):
        """How many grants of a unit a machine may have, which a line need not say."""
        return self.chance.choice(["", "", f" most {self.chance.randint(1, 4)}"])

    def hard_line(self, state):
        """A line that writes the hard state. Some are refused, as the ban of a machine that is banned."""
        word = self.chance.choice(["submit", "finish", "ban", "ban", "unban", "unban", "wrong"])
        live, epoch = state.live_jobs(), state.fence
        if self.has_jobs() and (len(live) < 2 or (word == "submit" and len(live) < MOST_JOBS)):
            return self.submission(epoch)
        if word in ("submit", "finish"):
            return f"finish {epoch} {self.chance.choice(live if len(live) > 2 else sorted(state.jobs))}"
        if word == "wrong":
            return self.chance.choice(self.wrong_lines(epoch, self.chance.choice(sorted(state.jobs))))
        return f"{word} {epoch} {self.machine()}"

    def wrong_lines(self, epoch, known):
        """Lines that are refused whatever the state is."""
        new, machines = f"submit {epoch} {NO_JOB}", len(self.shape.machines)
        return [
            f"submit {epoch} {known} 0 5 1 1",
            f"{new} {len(self.shape.groups)} 5 1 1",
            f"{new} 0 5 1",
            f"{new} 0 5 1 1 / 10 1 1",
            f"{new} 0 5 1 1000000000001",
            f"{new} 0 5 1 1 / 5 1 1 / 5 0 0 most 0",
            f"{new} 0 5 1 1 most 0",
            f"submit {epoch + 1} {NO_JOB} 0 5 1 1",
            f"finish {epoch} {NO_JOB}",
            f"finish {epoch + 1} {known}",
            f"ban {epoch} {machines}",
            f"ban {epoch + 1} 0",
            f"unban {epoch} {machines}",
        ]

    def soft_line(self, epoch, serves):
        """A line that changes a master alone, and its possible answers."""
        preempts = [[], ["refused NothingToPreempt"]] if serves else [["refused NotServing"]]
        return self.chance.choice(
            [
                (f"begin {epoch}", [["refused AlreadyServing"] if serves else []]),
                (f"preempt {epoch}", preempts),
                (f"preempt {epoch}", preempts),
                (f"resync master {epoch}", [[]]),
                (f"resync master {epoch + 1}", [["refused NotRunning"]]),
            ]
        )

    def demand(self, app):
        """What an application asks for, kept with it too."""
        word = self.chance.choice(["want", "want", "want", "near", "rack", "avoid"])
        unit, machine = self.chance.randrange(*app.units), self.machine()
        if word == "want":
            app.wants[unit] = self.chance.randrange(12)
            return f"want {app.number} {unit} {app.wants[unit]}"
        if word == "avoid":
            avoids = self.chance.randrange(2)
            (app.avoided.add if avoids else app.avoided.discard)((unit, machine))
            return f"avoid {app.number} {unit} {machine} {avoids}"
        place = machine if word == "near" else self.shape.machines[machine][0]
        return f"{word} {app.number} {unit} {place} {self.chance.randrange(4)}"

    def wrong_demand(self, app):
        """What an application refuses, and its answer."""
        job, other, machines = app.number, (app.number + 1) % 256, len(self.shape.machines)
        line, refusal = self.chance.choice(
            [
                (f"want {job} {app.units[0]} 1", "NoUnit"),
                (f"want {job} 0 100001", "WantRange 100000"),
                (f"want {other} 0 1", "NotRunning"),
                (f"near {job} 0 {machines} 1", "NoMachine"),
                (f"rack {job} 0 63 1", "NoRack"),
                (f"avoid {job} 0 {machines} 1", "NoMachine"),
                (f"back {job} 0 {machines} 0", "NoMachine"),
                (f"resync app {other}", "NotRunning"),
            ]
        )
        return line, f"refused {refusal}"

    def line_of_others(self, kind):
        """A line of another kind of node, or of none."""
        lines = {
            "master": ["want 0 0 1", "back 0 0 0 1", "resync agent 0", "resync app 0", "round"],
            "agent": ["want 0 0 1", "submit 1 0 0 5 1 1", "ban 1 0", "resync app 0", "resync master 1", "serve"],
            "app": ["submit 1 0 0 5 1 1", "preempt 1", "begin 1", "resync agent 0", "resync master 1", "serve"],
        }
        turns = ["turn master 1", "turn agent 0", "turn app 0", "deliver 1", "deliver 1 2", "dump 1"]
        return self.chance.choice(lines[kind] + turns + ["master 1", "stop 1", "agent 0 1", "app 0 1"])

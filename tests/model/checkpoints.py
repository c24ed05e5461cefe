"""A reader of checkpoints: what the bytes of a file stand for, in the words of `core_golden`."""

MOST_RECORDS = 65536
GREATEST_COUNT = 100000
# The bytes of a unit, by the version of its record: in the first one it has no greatest number per machine.
UNIT_BYTES = {1: 65, 2: 69}


def number(data):
    return int.from_bytes(data, "big")


class Damaged(Exception):
    pass


def job_of(version, body):
    """The number, the group and the units of a job's body, behind version and kind."""
    length = UNIT_BYTES[version]
    if len(body) < 9 or len(body) != 9 + length * body[8]:
        raise Damaged
    app, group, count = number(body[:4]), number(body[4:8]), body[8]
    units = []
    for place in range(count):
        unit = body[9 + length * place:9 + length * (place + 1)]
        most = number(unit[65:]) if version == 2 else GREATEST_COUNT
        units.append((unit[0], [number(unit[1 + 8 * q:9 + 8 * q]) for q in range(8)], most))
    if app > 255 or group > 31 or not 1 <= count <= 8:
        raise Damaged
    for priority, size, most in units:
        if priority > 9 or max(size) > 10 ** 12 or not any(size) or not 1 <= most <= GREATEST_COUNT:
            raise Damaged
    return app, group, units


def take(state, body):
    """Changes the state by the body of a record."""
    if len(body) < 2 or body[0] not in UNIT_BYTES or (body[0] == 2 and body[1] != 2):
        raise Damaged
    kind, rest = body[1], body[2:]
    if kind == 1:
        if len(rest) != 8 or number(rest) <= state["fence"]:
            raise Damaged
        state["fence"] = number(rest)
    elif kind == 2:
        app, group, units = job_of(body[0], rest)
        if app in state["jobs"]:
            raise Damaged
        state["jobs"][app] = [group, units, False]
    elif kind in (3, 4, 5):
        if len(rest) != 4 or number(rest) > 255:
            raise Damaged
        which = number(rest)
        if kind == 3:
            if which not in state["jobs"] or state["jobs"][which][2]:
                raise Damaged
            state["jobs"][which][2] = True
        elif kind == 4:
            if which in state["bans"]:
                raise Damaged
            state["bans"].add(which)
        else:
            if which not in state["bans"]:
                raise Damaged
            state["bans"].remove(which)
    else:
        raise Damaged


def read(data):
    """The lines that say what the bytes stand for."""
    state = {"fence": 0, "jobs": {}, "bans": set(), "records": 0}
    at = 0
    try:
        while len(data) > 1 and data[at] == 1:
            if state["records"] == MOST_RECORDS or len(data) - at < 5:
                raise Damaged
            size = number(data[at + 1:at + 5])
            if at + 5 + size >= len(data):
                raise Damaged
            take(state, data[at + 5:at + 5 + size])
            state["records"] += 1
            at += 5 + size
    except Damaged:
        return [f"NotCheckpoint {{ offset: {at} }}: the record at {at} is damaged"]
    lines = [f"fence {state['fence']}, records {state['records']}, bans" + "".join(f" {m}" for m in sorted(state["bans"]))]
    for app in sorted(state["jobs"]):
        group, units, ended = state["jobs"][app]
        text = "".join(f" / {p} " + " ".join(map(str, size)) + most_text(most) for p, size, most in units)
        lines.append(f"  job {app} {group} {'ended' if ended else 'live'}{text}")
    return lines


def most_text(most):
    return "" if most == GREATEST_COUNT else f" most {most}"

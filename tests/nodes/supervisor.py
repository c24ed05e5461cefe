"""A small supervisor for unit files: it starts the command of a unit as systemd does a system service, and starts it again by the same rules. It
knows just the keys that the units of this repository have, and refuses any other."""

import ctypes
import os
import pwd
import shlex
import shutil
import signal
import subprocess
import time

# Of a system service: what systemd gives it where the unit says nothing.
PATH = "/usr/local/sbin:/usr/local/bin:/usr/sbin:/usr/bin"
FOLDERS = {"StateDirectory": ("/var/lib", "STATE_DIRECTORY"), "RuntimeDirectory": ("/run", "RUNTIME_DIRECTORY")}
KNOWN = {
    "Unit": {"Description", "After", "Wants", "StartLimitIntervalSec"},
    "Service": {"User", "ExecStart", "Restart", "RestartSec", "RestartPreventExitStatus", *FOLDERS},
    "Install": {"WantedBy"},
}
SET_CHILD_SUBREAPER = 36


class BadUnit(Exception):
    pass


def read_unit(path, instance=""):
    """The keys of all sections, with `%i` put in."""
    found, section = {}, None
    with open(path, encoding="utf-8") as lines:
        for line in map(str.strip, lines):
            if line.startswith("["):
                section = line[1:-1]
            elif line and not line.startswith(("#", ";")):
                key, _, value = line.partition("=")
                if key not in KNOWN.get(section, ()):
                    raise BadUnit(f"{path}: the supervisor does not know {key} of [{section}]")
                found[key] = value.replace("%i", instance)
    if found["Restart"] != "always" or found.get("StartLimitIntervalSec") != "0":
        raise BadUnit(f"{path}: the supervisor starts a unit again always, and without a limit")
    return found


def seconds_of(text):
    return float(text[:-2]) / 1000 if text.endswith("ms") else float(text.removesuffix("s"))


class Unit:
    """A unit, kept by a process of its own for as long as it is started again."""

    def __init__(self, name, path, room, instance=""):
        self.name, self.said, self.log, self.ends, self.keeper = name, read_unit(path, instance), f"{room}/log", f"{room}/{name}.ends", None
        self.is_gone = False

    def start(self):
        open(self.ends, "a", encoding="ascii").close()
        self.keeper = os.fork()
        if not self.keeper:
            try:
                self.keep()
            finally:
                os._exit(0)
        return self

    def statuses(self):
        """What the command ended with, each time that it did."""
        with open(self.ends, encoding="ascii") as file:
            return [int(it) for it in file.read().split()]

    def main(self):
        """The process that the command of the unit is now, or None."""
        return next(iter(children_of(self.keeper)), None)

    def is_over(self):
        """Whether it is not started again."""
        self.is_gone = self.is_gone or os.waitpid(self.keeper, os.WNOHANG)[0] == self.keeper
        return self.is_gone

    def stop(self):
        os.kill(self.keeper, signal.SIGTERM)

    # In the process of the unit.

    def keep(self):
        # (what the command leaves behind when it ends becomes a child of this process, and is ended as a control group would end it)
        ctypes.CDLL(None).prctl(SET_CHILD_SUBREAPER, 1, 0, 0, 0)
        signal.signal(signal.SIGTERM, self.end)
        last = set(map(int, self.said.get("RestartPreventExitStatus", "").split()))
        while True:
            status = wait_for(self.spawn())
            with open(self.ends, "a", encoding="ascii") as file:
                file.write(f"{status}\n")
            if status in last:
                return
            time.sleep(seconds_of(self.said["RestartSec"]))

    def end(self, *_):
        end_children()
        os._exit(0)

    def spawn(self):
        user, told = self.make_folders()
        known = {"PATH": PATH, "LANG": "C.UTF-8", "USER": user.pw_name, "LOGNAME": user.pw_name, "HOME": user.pw_dir, "SHELL": user.pw_shell, **told}
        more = {"user": user.pw_uid, "group": user.pw_gid, "extra_groups": [], "umask": 0o022, "cwd": "/", "env": known, "start_new_session": True}
        with open(self.log, "ab") as log:
            return subprocess.Popen(shlex.split(self.said["ExecStart"]), stdin=subprocess.DEVNULL, stdout=log, stderr=log, **more)

    def make_folders(self):
        """The user, and what the environment says of the folders of the unit, which are made. One of /run is made anew at each start."""
        user, told = pwd.getpwnam(self.said["User"]), {}
        for key, (at, word) in FOLDERS.items():
            if key in self.said:
                path = f"{at}/{self.said[key]}"
                if at == "/run":
                    shutil.rmtree(path, ignore_errors=True)
                os.makedirs(path, exist_ok=True)
                os.chown(path, user.pw_uid, user.pw_gid)
                told[word] = path
        return user, told


def wait_for(process):
    """The status of a command; what it has left behind is ended then."""
    status = process.wait()
    end_children()
    return status


def end_children():
    while left := children_of(os.getpid()):
        for process in left:
            os.kill(process, signal.SIGKILL)
            os.waitpid(process, 0)


def children_of(process):
    try:
        with open(f"/proc/{process}/task/{process}/children", encoding="ascii") as file:
            return [int(it) for it in file.read().split()]
    except OSError:
        return []

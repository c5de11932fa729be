#!/usr/bin/env -S python3 -I
"""An OCI createRuntime hook: a container comes up only if the ports of its volumes are isolated.

    create_runtime.py CONFIGURATION < STATE

STATE is the container's state as the runtime hands it to a hook; its annotation mwishovala.volumes names the volumes, with
commas between them. CONFIGURATION says where the command is, and of each volume the fabric file and the port:

    {"command": "/usr/bin/mwishovala",
     "volumes": {"group7-data": {"fabric": "/var/lib/fabrics/campus.fabric", "port": 2}}}

The status is 0 only if 'mwishovala gate' says of every one of them that it is isolated; else it is 1, and standard error says
why. Nothing is passed over: without the annotation, or for a volume without an entry, the status is 1.
"""

import hashlib
import json
import os
import subprocess
import sys

ANNOTATION = "mwishovala.volumes"
MOST_PORT = 4095
# What the gate says of a fabric of version 1 and of version 2.
EVERY_HEADER = {1: "every IPv4 header", 2: "every Ethernet and IPv4 header"}
# A gate that takes longer is no answer; the usual budget ends well before.
SECONDS = 300


class Refused(Exception):
    """Why the container doesn't come up."""


def main(arguments):
    if len(arguments) != 1:
        raise Refused("one argument, the configuration, is needed")
    with open(arguments[0], encoding="utf-8") as file:
        configuration = json.load(file)
    volumes = volumes_of(json.load(sys.stdin))
    for volume in volumes:
        ask(*place_of(configuration, volume))


def volumes_of(state):
    """The volumes that a container's state names, one at least."""
    named = member(member(state, "annotations"), ANNOTATION)
    if not isinstance(named, str):
        raise Refused(f"{ANNOTATION} is no text")
    return named.split(",")


def place_of(configuration, volume):
    """The command, and the volume's fabric file and port."""
    command = path(configuration, "command")
    entry = member(member(configuration, "volumes"), volume)
    port = member(entry, "port")
    # In Python, True is an int too.
    if type(port) is not int or not 1 <= port <= MOST_PORT:
        raise Refused(f"{volume}: {port!r} is no port")
    return command, path(entry, "fabric"), port


def member(value, name):
    if not isinstance(value, dict) or name not in value:
        raise Refused(f"there is no {name!r}")
    return value[name]


def path(value, name):
    """A path that means the same wherever the hook is run."""
    found = member(value, name)
    if not isinstance(found, str) or not os.path.isabs(found):
        raise Refused(f"{name}: {found!r} is no absolute path")
    return found


def ask(command, fabric, port):
    """Refuses but for status 0 and the line that goes with it, about the file that stands there."""
    with open(fabric, "rb") as file:
        there = file.read()
    digest = hashlib.sha256(there).hexdigest()
    gate = subprocess.run(
        [command, "gate", "--", fabric, str(port)],
        stdin=subprocess.DEVNULL,
        capture_output=True,
        env={},
        timeout=SECONDS,
        check=False,
    )
    headers = EVERY_HEADER.get(version_of(there))
    isolated = f"isolated: port {port}, {headers}, 16 hops, sha256 {digest}\n"
    if gate.returncode != 0 or gate.stdout != isolated.encode():
        said = (gate.stdout + gate.stderr).decode(errors="replace").strip()
        raise Refused(f"{fabric}, port {port}: status {gate.returncode}: {said}")


def version_of(fabric):
    """The version in bits 26..16 of a fabric's first word."""
    return int.from_bytes(fabric[:4], "little") >> 16 & 0x7FF


if __name__ == "__main__":
    try:
        main(sys.argv[1:])
    # Whatever it is that goes wrong, the container stays down.
    except Exception as why:
        sys.exit(f"mwishovala hook: {why}")

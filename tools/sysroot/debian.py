"""Archives of Debian's source packages, by apt: with a list of sources of its own, so that no file of the system changes."""

import os
import subprocess
import tarfile

MIRROR = "http://deb.debian.org/debian"
KEYRING = "/usr/share/keyrings/debian-archive-keyring.gpg"
UPDATE, DOWNLOAD = 60, 900  # seconds
CONFIGURATION = """Dir::Etc::sourcelist "{0}/sources.list";
Dir::Etc::sourceparts "-";
Dir::State::lists "{0}/lists";
Dir::Cache "{0}/cache";
APT::Sandbox::User "root";
Acquire::http::Timeout "15";
Acquire::Retries "1";
"""


class Absent(Exception):
    """What cannot be had here."""


def asked(command, folder, **options):
    """The output of a command that must end well, in a folder."""
    try:
        done = subprocess.run(command, cwd=folder, stdin=subprocess.DEVNULL, stdout=subprocess.PIPE, stderr=subprocess.STDOUT, **options)
    except FileNotFoundError as fault:
        raise Absent("there is no %s" % command[0]) from fault
    except subprocess.TimeoutExpired as fault:
        raise Absent("%s took too long" % " ".join(command)) from fault
    if done.returncode:
        raise Absent("%s: status %d\n%s" % (" ".join(command), done.returncode, done.stdout.decode(errors="replace")[-2000:]))
    return done.stdout.decode(errors="replace")


def configured(suite, folder):
    """The environment in which apt knows the sources of this suite alone."""
    place = os.path.join(os.path.abspath(folder), "apt", suite)
    for each in ("lists/partial", "cache/archives/partial"):
        os.makedirs(os.path.join(place, each), exist_ok=True)
    with open(os.path.join(place, "sources.list"), "w") as file:
        file.write("deb-src [signed-by=%s] %s %s main\n" % (KEYRING, MIRROR, suite))
    path = os.path.join(place, "apt.conf")
    with open(path, "w") as file:
        file.write(CONFIGURATION.format(place))
    return dict(os.environ, APT_CONFIG=path)


def kept(name, folder):
    """The archive of a package that the folder has."""
    found = [each for each in sorted(os.listdir(folder)) if each.startswith(name + "_") and ".orig.tar." in each]
    return next((os.path.join(folder, each) for each in found if not each.endswith(".asc")), None)


def archive(name, folder, suite="bookworm"):
    """The path of a package's archive, which apt fetches, and checks, where the folder does not have it."""
    os.makedirs(folder, exist_ok=True)
    if not kept(name, folder):
        environment = configured(suite, folder)
        asked(["apt-get", "update"], folder, env=environment, timeout=UPDATE)
        asked(["apt-get", "source", "--download-only", "--tar-only", name], folder, env=environment, timeout=DOWNLOAD)
    if not kept(name, folder):
        raise Absent("apt left no archive of %s in %s" % (name, folder))
    return kept(name, folder)


def unpacked(path, folder, part=""):
    """Unpacks the files of an archive whose paths have this part, without its first folder's name."""
    os.makedirs(folder, exist_ok=True)
    with tarfile.open(path) as packed:
        for member in packed:
            place = member.name.partition("/")[2]
            if part in member.name and place and ".." not in place.split("/"):
                member.name = place
                packed.extract(member, folder)
    return folder

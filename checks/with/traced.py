"""What checks/failures does with strace: the device calls of a session with their octets, the images of the store that a
power cut may leave after each of them, and calls that fail."""
import os
import re
import shutil

STRACE = shutil.which("strace")

# calls that change a file, which are read with their octets, and those that change nothing of it
CHANGING = ["pwrite64", "ftruncate", "fsync", "fdatasync"]
HARMLESS = ["openat", "open", "close", "fcntl", "flock", "fstat", "newfstatat", "statx", "pread64", "lseek"]

CALL = re.compile(r"(?:\d+ +)?(\w+)\((.*)\) += (-?\d+|\?)(.*)")
WRITE = re.compile(r'\d+<[^>]*>, "((?:\\x[0-9a-f]{2})*)"(?:, \d+)*?, (\d+)(?:, (\d+))?')


def tracing(log, calls, paths=(), octets=0, failing=()):
    """The words before those of a program, so that these calls of it are noted in a file, of all files or of these paths
    alone. Those that fail have a name, an error, and a number: `3` the third of that name, `3+` each from it on."""
    words = [STRACE, "-qq", "-f", "-y", "-e", "signal=none", "-o", log, "-s", str(octets), "-e", f"trace={','.join(calls)}"]
    for it in paths:
        words += ["-P", it]
    if octets:
        words += ["-xx"]
    for call, error, number in failing:
        # (the system answers a brk that fails with another end than the one that was asked for, and no error)
        how = "retval=0" if call == "brk" else f"error={error}"
        words += ["-e", f"inject={call}:{how}:when={number}"]
    return words


def calls_of(log):
    """The calls that were noted: the name, the arguments, the result, and what stands after it."""
    with open(log, encoding="latin-1") as file:
        return [found.groups() for found in map(CALL.fullmatch, file.read().splitlines()) if found]


def has_failed(log):
    """Whether a call that was to fail was made."""
    return any("(INJECTED)" in rest for *_, rest in calls_of(log))


def octets_of(text):
    return bytes.fromhex(text.replace("\\x", ""))


def path_of(arguments):
    """The path of the descriptor that a call names first."""
    found = re.match(r"\d+<((?:\\x[0-9a-f]{2})*)>", arguments)
    return octets_of(found[1]).decode() if found else None


def event_of(call, arguments, store):
    """A device call: ("write", place, octets), ("cut", size, None) or ("sync", None, None); or ("told", octets, None)."""
    if call == "write":
        return ("told", octets_of(WRITE.match(arguments)[1]), None) if re.match(r"1[<,]", arguments) else None
    if path_of(arguments) == os.path.dirname(store) and call in ("fsync", "fdatasync"):
        return ("named", None, None)
    if path_of(arguments) != store:
        return None
    if call == "pwrite64":
        _, octets, place = WRITE.match(arguments)[0], WRITE.match(arguments)[1], WRITE.match(arguments)[3]
        return "write", int(place), octets_of(octets)
    if call == "ftruncate":
        return "cut", int(arguments.rsplit(",", 1)[1]), None
    return "sync", None, None


def events_of(log, store):
    """What a session did to its store and told its client, in order. Each call was done whole."""
    events = []
    for call, arguments, result, _ in calls_of(log):
        event = event_of(call, arguments, store)
        if event is None:
            continue
        if result == "-1" or (event[0] == "write" and int(result) != len(event[2])):
            raise ValueError(f"{call} gave {result}")
        if event[0] == "told":
            event = ("told", event[1][: int(result)], None)
        events.append(event)
    return events


# ---- the images that a power cut may leave

def written(image, place, octets):
    image = image.ljust(place, b"\x00")
    return image[:place] + octets + image[place + len(octets) :]


def done(image, event):
    """An image after a write or a cut that is done whole."""
    kind, place, octets = event
    return written(image, place, octets) if kind == "write" else image[:place]


def torn(image, event):
    """Images after a write that was cut short, or a cut that was not done. The size is the old one or the new one."""
    kind, place, octets = event
    if kind == "cut":
        return [image]
    size, end = len(image), max(len(image), place + len(octets))
    fronts = {octets[: len(octets) // 2], octets[:1]}
    # (any octets may stand in its range; of a single one this is all that can happen)
    others = {b"\xff" * len(octets)} | ({b"\x02", b"\x00", b"\x01"} if len(octets) == 1 else set())
    images = []
    for it in fronts | others:
        whole = written(image, place, it)
        images += [whole, whole.ljust(end, b"\x00"), whole[:size]]
    return images


def images_after(synced, unsynced):
    """The images that a power cut leaves of a file that is durable as it stands first, and of writes and cuts that no sync
    has followed: nothing of these, all, each alone, all but each, and the last of them torn, with the others and without."""
    images = [synced]
    whole = synced
    for it in unsynced:
        whole = done(whole, it)
    images.append(whole)
    for at in range(len(unsynced)):
        images.append(done(synced, unsynced[at]))
        others = synced
        for it in unsynced[:at] + unsynced[at + 1 :]:
            others = done(others, it)
        images.append(others)
    if unsynced:
        before = synced
        for it in unsynced[:-1]:
            before = done(before, it)
        images += torn(before, unsynced[-1]) + torn(synced, unsynced[-1])
    return list(dict.fromkeys(images))


class Moment:
    """A moment of a session: after so many of its replies, the images that a power cut may leave then."""

    def __init__(self, replies, images, told):
        self.replies, self.images, self.told = replies, images, told


def moments_of(start, events, mark):
    """The moments of a session that begins with a store as it is at the start (None: there is none), one before its first
    device call, one after each, and one after each message to its client (`told`)."""
    named = start is not None
    synced, unsynced, replies, left = start or b"", [], 0, b""
    moments = [Moment(0, [start], False)]
    for kind, place, octets in events:
        if kind == "told":
            left += place
            ends, left = left.count(mark), left.rsplit(mark, 1)[-1]
            if not ends:
                continue
            replies += ends
        elif kind == "named":
            named = True
        elif kind == "sync":
            for it in unsynced:
                synced = done(synced, it)
            unsynced = []
        else:
            unsynced = unsynced + [(kind, place, octets)]
        images = images_after(synced, unsynced)
        moments.append(Moment(replies, images if named else [None, *images], kind == "told"))
    return moments

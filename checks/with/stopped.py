"""Rows of checks/failures: a power cut at each device call of the store. strace notes what a session writes, cuts and syncs;
each image that a cut may leave at that moment is put in the place of the store, and the program is asked what it begins with:
the configuration of the last commit that was acknowledged, or of the one on its way."""
import os

from stored import (AREAS, CANCEL, COMMIT, CONFIRMED, DONE, MARK, Device, Session, begun, front_of, header_of, is_ok,
                    looked_at, reading, recorded, set_to)
from traced import CHANGING, events_of, moments_of, tracing

# the longest text that a call is noted with
OCTETS = 1 << 20
# so large an area grows at least before a record begins another one
AREA = 1 << 20
BASE = (1, None)


class Step:
    """A request; the number and text that running shows once it is done, and those that are kept then."""

    def __init__(self, request, shows=None, keeps=None):
        self.request, self.shows, self.keeps = request, shows or keeps, keeps


def commit(number, text=None):
    return [Step(set_to(number, text)), Step(COMMIT, keeps=(number, text))]


def three():
    """A commit; a confirmed one that is confirmed; one that is taken back; one that is still to be confirmed at the end."""
    return [
        *commit(11),
        Step(set_to(12)),
        Step(CONFIRMED, shows=(12, None)),
        Step(COMMIT, keeps=(12, None)),
        Step(set_to(13)),
        Step(CONFIRMED, shows=(13, None)),
        Step(CANCEL, shows=(12, None)),
        Step("<discard-changes/>"),
        *commit(14),
        Step(set_to(15)),
        Step(CONFIRMED, shows=(15, None)),
    ]


def made(program, device, image, steps):
    """The store after these steps, from one that is an image."""
    device.put(image)
    session = Session(program, device)
    for step in steps:
        if not is_ok(session.ask(step.request)):
            raise ValueError("a step is refused")
    if session.end() != DONE:
        raise ValueError("a session does not end well")
    return device.image()


def traced(table, device, image, steps):
    """The device calls of such a session."""
    device.put(image)
    session = Session(table.program, device, tracing(table.log, [*CHANGING, "write"], octets=OCTETS))
    told = [session.ask(step.request) for step in steps]
    ended = session.end()
    if not all(map(is_ok, told)) or ended != DONE:
        raise ValueError(f"a session is not as wanted: {told} {ended}")
    return events_of(table.log, device.store)


def one_record(table, device):
    return made(table.program, device, None, commit(10))


def full_areas(table, device):
    """Stores whose live area has no room for another record, the first area and one behind it, and what they begin with. They
    are made of the layout: an earlier record may have any octets, and fills the area."""
    image = one_record(table, device)
    header = header_of([device.module])
    (body,), _ = reading(image, [device.module])[1]
    small = header + recorded(body) + b"\x00"
    large = b"x" * (AREA - len(header) - 2 * len(recorded(body)) - 9)
    full = header + recorded(large) + recorded(body) + b"\x00"
    place = AREAS + len(small) + 100
    return [front_of(0, AREAS, 0) + full, front_of(1, AREAS, place) + small + bytes(100) + full]


class Asked:
    """What the program begins with, for images of a device's store. Each image is asked for once."""

    def __init__(self, program, device):
        self.program, self.device, self.told = program, device, {}

    def of(self, image):
        """The number and text of running, what is not as wanted, and the store afterwards."""
        if image not in self.told:
            self.device.put(image)
            status, noted, counted = looked_at(self.program, self.device)
            looked = self.device.image()
            self.device.put(image)
            *ended, found = begun(self.program, self.device)
            fault = "" if (status, noted) == DONE and tuple(ended) == DONE else f"check {status} {noted}; a session {ended}"
            kind, bodies = reading(image or b"", [self.device.module])
            wanted = len(bodies[0]) if kind == "bodies" else 0
            if not fault and (counted is None or counted[1] != wanted):
                fault = f"check counts {counted} rows and records, and the layout has {wanted} records"
            if not fault and self.device.image() != looked:
                fault = "a session leaves another file than check"
            self.told[image] = found, fault, looked
        return self.told[image]


def allowed_at(moment, base, steps):
    """What may come back at a moment: what was kept last, and what is on its way until it is answered."""
    kept = [base]
    for step in steps:
        kept.append(step.keeps or kept[-1])
    done = max(0, moment.replies - 1)
    return {kept[done]} if moment.told else {kept[done], kept[min(done + 1, len(steps))]}


def look_at(table, say, device, asked, image, base, steps, torn=()):
    """Cuts the power at each moment of these steps: how many moments there are, images, and those that differ. Of a torn
    store, what else may come back until it is open."""
    moments = moments_of(image, traced(table, device, image, steps), MARK)
    images = 0
    distinct = list(dict.fromkeys(it for moment in moments for it in moment.images))
    chosen = set(table.part(distinct, 12))
    for at, moment in enumerate(moments):
        allowed = allowed_at(moment, base, steps) | (set() if moment.replies else set(torn))
        for it in moment.images:
            if it not in chosen:
                continue
            images += 1
            found, fault, _ = asked.of(it)
            if not fault and found not in allowed:
                fault = f"it begins with {short(found)} and not {[short(it) for it in allowed]}"
            say(f"moment {at}, an image of {'no' if it is None else len(it)} octets", fault and f"{fault}{kept_in(table, it)}")
    return len(moments), images, len(chosen)


def short(found):
    return found if not isinstance(found, tuple) else (found[0], found[1] and f"{len(found[1])} octets")


def kept_in(table, image):
    """Keeps an image that shows a fault, and says where."""
    folder = os.environ.get("FAILURES_KEEP")
    if not folder:
        return ""
    path = os.path.join(folder, f"{os.path.basename(table.room)}-{abs(hash(image))}.nc")
    with open(path, "wb") as file:
        file.write(image or b"")
    return f" ({path})"


def said(moments, images, distinct):
    return f"{moments} moments, {images} images, {distinct} of them distinct"


def a_new_device(table, say):
    device = Device(table.room)
    return said(*look_at(table, say, device, Asked(table.program, device), None, BASE, commit(10)))


def three_commits(table, say):
    device = Device(table.room)
    image = one_record(table, device)
    return said(*look_at(table, say, device, Asked(table.program, device), image, (10, None), three()))


def a_new_area(table, say):
    device = Device(table.room)
    asked = Asked(table.program, device)
    tried = [0, 0, 0]
    for image in full_areas(table, device):
        found = look_at(table, say, device, asked, image, (10, None), commit(60) + commit(61))
        tried = [a + b for a, b in zip(tried, found)]
    return said(*tried)


def torn_images(table, device, asked):
    """Images of a new device, of an appended commit and of a new area which the program mends when it opens them, each with
    what it begins with, and what else may come back until it is mended."""
    images = []
    stores = [(None, BASE, commit(10)), (one_record(table, device), (10, None), commit(11))]
    stores += [(it, (10, None), commit(60)) for it in full_areas(table, device)[: 1 if table.quick else 2]]
    for image, base, steps in stores:
        torn = {}
        for moment in moments_of(image, traced(table, device, image, steps), MARK):
            for it in moment.images:
                if it is not None and mends(it, device):
                    torn.setdefault(it, allowed_at(moment, base, steps))
        images += table.part(torn.items(), 1)
    return [(it, asked.of(it)[0], allowed) for it, allowed in images]


def mends(image, device):
    """Whether the layout says that an image is written anew when it is opened: it is new, or a byte of it is torn."""
    kind, bodies = reading(image, [device.module])
    if kind == "new":
        return image != b""
    slot = 18 if image[9] == 1 else 10
    area = header_of([device.module]) + b"".join(map(recorded, bodies[0]))
    gate = int.from_bytes(image[slot : slot + 8], "big") + len(area)
    return image[9] > 1 or image[gate] > 1


def a_torn_start(table, say):
    """The same while a torn store is opened, and while a commit follows."""
    device = Device(table.room)
    asked = Asked(table.program, device)
    tried, images = [0, 0, 0], torn_images(table, device, asked)
    for image, base, allowed in images:
        found = look_at(table, say, device, asked, image, base, commit(90), allowed)
        tried = [a + b for a, b in zip(tried, found)]
    return f"{len(images)} torn stores: {said(*tried)}"


ROWS = [
    ("a power cut: a new device and its first commit", a_new_device),
    ("a power cut: a start and commits, confirmed ones too", three_commits),
    ("a power cut: commits that begin a new area", a_new_area),
    ("a power cut: a start of a torn store, and a commit", a_torn_start),
]

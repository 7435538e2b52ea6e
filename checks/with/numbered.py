"""Rows of checks/failures: each request for memory is refused, by its number, by a library that stands before the C library's;
and what a client sends is cut at each octet."""
import concurrent.futures
import os
import shutil
import subprocess
import tempfile

from stored import (BASE as SPACE, COMMIT, CONFIRMED, DONE, HELLO, MARK, MEMORY, PATIENCE, RUNNING, Device, begun, request,
                    set_to)
from stopped import BASE, full_areas, one_record, short

LIBRARY = r"""
#include <errno.h>
#include <fcntl.h>
#include <stdlib.h>
#include <sys/mman.h>
#include <unistd.h>

extern void *__libc_malloc(size_t), *__libc_calloc(size_t, size_t), *__libc_realloc(void *, size_t), *__libc_memalign(size_t, size_t);
static long own, refused, *count = &own;

__attribute__((constructor)) static void begin(void)
{
    char *number = getenv("REFUSED"), *path = getenv("COUNTED");
    int file = path ? open(path, O_RDWR) : -1;
    void *shared = mmap(0, sizeof own, PROT_READ | PROT_WRITE, MAP_SHARED, file, 0);
    if (shared != MAP_FAILED) { count = shared; *count = 0; }
    close(file);
    refused = number ? atol(number) : 0;
}
static int refuses(void)
{
    if (__atomic_add_fetch(count, 1, __ATOMIC_RELAXED) != refused) return 0;
    errno = ENOMEM;
    return 1;
}
void *malloc(size_t size) { return refuses() ? 0 : __libc_malloc(size); }
void *calloc(size_t many, size_t size) { return refuses() ? 0 : __libc_calloc(many, size); }
void *realloc(void *block, size_t size) { return refuses() ? 0 : __libc_realloc(block, size); }
void *aligned_alloc(size_t by, size_t size) { return refuses() ? 0 : __libc_memalign(by, size); }
int posix_memalign(void **block, size_t by, size_t size)
{
    *block = refuses() ? 0 : __libc_memalign(by, size);
    return *block ? 0 : ENOMEM;
}
"""
COMPILER = next(filter(shutil.which, ["cc", "gcc", "clang"]), None)


def message(operation):
    return request(operation).encode() + MARK


def chunked(operation):
    text = request(operation).encode()
    return b"\n#%d\n%s\n##\n" % (len(text), text)


def told(program, device, text, **more):
    """A session that is sent a text and no more: its status, what it noted, and what it wrote."""
    run = subprocess.run([program, "stdio", "--recovery", device.folder, "alice"], input=text, capture_output=True, timeout=PATIENCE,
                         env={**os.environ, **more})
    return (run.returncode, run.stderr.decode(errors="replace").strip()), run.stdout


class Refusing:
    """The library, and the numbers of requests for memory."""

    def __init__(self, room):
        self.room = tempfile.mkdtemp(dir=room)
        self.library = os.path.join(self.room, "refusing.so")
        with open(os.path.join(self.room, "refusing.c"), "w", encoding="ascii") as file:
            file.write(LIBRARY)
        subprocess.run([COMPILER, "-shared", "-fPIC", "-O1", "-o", self.library, file.name], check=True)

    def told(self, program, device, text, number=0):
        """A session whose request for memory of that number is refused: as before, and how many there were."""
        with tempfile.NamedTemporaryFile(dir=self.room) as counted:
            counted.write(bytes(8))
            counted.flush()
            ended, wrote = told(program, device, text, LD_PRELOAD=self.library, REFUSED=str(number), COUNTED=counted.name)
            counted.seek(0)
            return ended, wrote, int.from_bytes(counted.read(8), "little")


def stories(table):
    """What is tried: the store, what a session is sent, and what running is before and after it."""
    device = Device(table.room)
    kept = one_record(table, device)
    hello = HELLO.encode() + MARK
    yield "a commit", None, hello + message(set_to(31)) + message(COMMIT) + message(RUNNING), BASE, (31, None)
    pending = message(set_to(32)) + message(CONFIRMED) + message(RUNNING)
    yield "a confirmed commit", kept, hello + pending, (10, None), (10, None)
    full = full_areas(table, device)[0]
    both = '<number xmlns="urn:n" nc:operation="delete"/>'
    drop = f'<edit-config><target><candidate/></target><config xmlns:nc="{SPACE}">{both}</config></edit-config>'
    yield "a new area", full, hello + message(drop) + message(COMMIT) + message(RUNNING), (10, None), (None, None)


def refusal(table, refusing, image, text, number, wanted, allowed):
    """What is not as wanted where the request for memory of a number is refused."""
    device = Device(table.room)
    device.put(image)
    ended, wrote, _ = refusing.told(table.program, device, text, number)
    if ended not in (DONE, MEMORY):
        return ended[0], f"it ended with {ended}"
    if not wanted.startswith(wrote) or (ended == DONE and wrote != wanted):
        return ended[0], f"it ended with {ended} and wrote {wrote[-200:]!r}"
    done = wrote.count(b"<ok/>") > 1
    *next_, found = begun(table.program, device)
    found = tuple(found) if isinstance(found, tuple) else found
    if tuple(next_) != DONE or found not in (allowed[1:] if done else allowed):
        return ended[0], f"the next start is {next_} {short(found)}, and the commit was {'' if done else 'not '}acknowledged"
    shutil.rmtree(device.folder)
    return ended[0], ""


def numbers(table, say):
    """Each request for memory of three sessions; those of the start in the first of them alone."""
    refusing = Refusing(table.room)
    device = Device(table.room)
    begins = refusing.told(table.program, device, HELLO.encode() + MARK)[2]
    if not begins:
        raise ValueError("the program asks the C library for no memory")
    counts, ends = [], {}
    for what, image, text, before, after in stories(table):
        device.put(image)
        ended, wanted, count = refusing.told(table.program, device, text)
        if ended != DONE or b"<rpc-error>" in wanted:
            raise ValueError(f"{what}: without a refusal it ends with {ended} and {wanted!r}")
        chosen = table.part(range(1 if what == "a commit" else begins, count + 1), 12)
        counts.append(len(chosen))
        with concurrent.futures.ThreadPoolExecutor(os.cpu_count()) as pool:
            tried = pool.map(lambda at: refusal(table, refusing, image, text, at, wanted, [before, after]), chosen)
            for at, (status, fault) in zip(chosen, tried):
                ends[status] = ends.get(status, 0) + 1
                say(f"{what}: request {at} of {count}", fault)
    return f"{' + '.join(map(str, counts))} refusals: " + ", ".join(f"status {it} {ends[it]} times" for it in sorted(ends))


def inputs():
    """The texts of a session in both framings, what ends each message of them, and which message is the commit."""
    new = HELLO.replace("base:1.0</cap", "base:1.1</cap").encode() + MARK
    asked = [set_to(41), COMMIT, RUNNING]
    yield "base:1.0", HELLO.encode() + MARK + b"".join(map(message, asked)), MARK
    yield "base:1.1", new + b"".join(map(chunked, asked)), b"\n##\n"


def cut(table, text, size, ends, wanted):
    """What is not as wanted where a session is sent the first so many octets of a text."""
    device = Device(table.room)
    device.put(None)
    done = sum(at <= size for at in ends)
    ended, wrote = told(table.program, device, text[:size])
    replies = wanted[max(0, done - 1)]
    if ended != DONE or wrote != replies:
        return f"it ended with {ended} and wrote {wrote[-200:]!r}"
    *next_, found = begun(table.program, device)
    if tuple(next_) != DONE or found != ((41, None) if done > 2 else BASE):
        return f"the next start is {next_} {short(found)}"
    shutil.rmtree(device.folder)
    return ""


def cuts(table, say):
    """A session's input, cut at each octet: its requests up to there are answered, and its end is that of the input."""
    tried = []
    for what, text, end in inputs():
        ends = [text.index(MARK) + len(MARK)]
        while (at := text.find(end, ends[-1])) >= 0:
            ends.append(at + len(end))
        wanted = []
        for size in ends:
            device = Device(table.room)
            wanted.append(told(table.program, device, text[:size])[1])
        if [it.count(b"<rpc-reply") for it in wanted] != [0, 1, 2, 3] or b"<rpc-error>" in wanted[-1]:
            raise ValueError(f"{what}: the whole input is answered {wanted[-1]!r}")
        sizes = table.part(range(len(text) + 1), 20)
        tried.append(len(sizes))
        with concurrent.futures.ThreadPoolExecutor(os.cpu_count()) as pool:
            for size, fault in zip(sizes, pool.map(lambda size: cut(table, text, size, ends, wanted), sizes)):
                say(f"{what}: {size} octets", fault)
    return f"{' + '.join(map(str, tried))} cuts of sessions in both framings"


CUT = [("a session's input, cut at each octet", cuts)]
NUMBERED = [("memory that is refused, request by request", numbers)]

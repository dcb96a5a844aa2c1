"""The traces of `compare` and `flat`, by kind.

A trace frees and takes names that are picked at random, so half of them are live. In `cached` the thread's cache takes the
sizes back always; in `small` sizes are up to 128; in `queue` too, but the oldest block is freed each time; in `medium` they
are up to 1,000, so 100,000 blocks nearly fill main's window; in `mixed` they are spread over all bins; in `calloc` calloc
takes every second of such blocks, and in `aligned` posix_memalign takes them; in `vector` realloc makes blocks larger by
half until they are freed. With a number behind it, as in `mixed/4`, the names are spread over so many threads, each of which
hands on one in eight blocks by a tray, while there are trays, and another frees it. In `equals` large blocks of one size,
each between small ones, are taken, freed and taken again. A trace in which a thread has more names than version 1 has is of
version 2.
"""
import random
from collections import deque
from itertools import islice

LONGEST = 20000
TRAYS = 65536
NAMES_OF_VERSION_1 = 65535


def mixed_size(pick):
    """Most sizes are small, some large, few very large."""
    return pick.randint(0, pick.choice([128, 128, 1024, 1024, 1024, 1024, 20000, 20000]))


def cached_block(pick, name):
    """A size has up to seven names, or as many as there are names for 64 sizes, so its list takes each freed block."""
    smallest = 25 + name // 7 % 63 * 16
    return f"m {name} {pick.randint(smallest, smallest + 15)}"


def small_block(pick, name):
    return f"m {name} {pick.randint(0, 128)}"


def medium_block(pick, name):
    return f"m {name} {pick.randint(0, 1000)}"


def mixed_block(pick, name):
    return f"m {name} {mixed_size(pick)}"


def calloc_block(pick, name):
    """Every second block is one of calloc, with 1, 4 or 16 members."""
    size, count = mixed_size(pick), pick.choice([1, 4, 16])
    return pick.choice([f"m {name} {size}", f"c {name} {count} {size // count}"])


def aligned_block(pick, name):
    """The alignments are the powers of two from 16 to 4,096."""
    return f"a {name} {16 << pick.randint(0, 8)} {mixed_size(pick)}"


def vector_block(_pick, name):
    """Its size is 24, as in `trace`."""
    return f"m {name} 24"


BLOCKS = {
    "cached": cached_block, "small": small_block, "queue": small_block, "medium": medium_block, "mixed": mixed_block,
    "calloc": calloc_block, "aligned": aligned_block, "vector": vector_block,
}


def turns(kind, pick, names):
    """The names of a thread as its lines take and free them, without end."""
    if kind == "queue":
        live = names // 2
        yield from range(1, live + 1)
        oldest = 0
        while True:
            yield oldest % names + 1
            yield (oldest + live) % names + 1
            oldest += 1
    while True:
        yield pick.randint(1, names)


def equals(names):
    """Half of the names are of large blocks; that of the last name, which is larger, has them sorted into their bin."""
    large = range(1, names - 1, 2)
    for name in large:
        yield f"0 m {name} 2000\n0 m {name + 1} 24\n"
    yield from (f"0 f {name}\n" for name in large)
    yield f"0 m {names} 2020\n"
    yield from (f"0 m {name} 2000\n" for name in large)


def header(names):
    """That of version 2 where a thread has more names than version 1 has."""
    return f"ptmtrace {1 if names <= NAMES_OF_VERSION_1 else 2}\n"


def trace(kind, lines, names):
    """The lines of a trace of so many lines of thread 0 over so many names; of `equals` there are 2 * names - 1, and names are
    odd in number."""
    yield header(names)
    if kind == "equals":
        yield from equals(names)
        return
    pick = random.Random(lines * 65537 + names)
    sizes = {}
    for name in islice(turns(kind, pick, names), lines):
        if name not in sizes:
            sizes[name] = 24
            yield f"0 {BLOCKS[kind](pick, name)}\n"
        elif kind == "vector" and sizes[name] < LONGEST:
            sizes[name] += sizes[name] // 2
            yield f"0 r {name} {sizes[name]}\n"
        else:
            del sizes[name]
            yield f"0 f {name}\n"


def trace_of_threads(kind, threads, lines, names):
    """The same of so many threads, each of which has its share of the names. A tray goes to the next thread."""
    pick = random.Random(lines * 65537 + names)
    sizes, queues, next_tray = {}, [deque() for _ in range(threads)], 0
    names_of = [turns(kind, pick, names // threads) for _ in range(threads)]
    yield header(names // threads)
    for _ in range(lines):
        thread = pick.randrange(threads)
        name = next(names_of[thread])
        key = thread, name
        if key not in sizes:
            sizes[key] = 24
            if queues[thread]:
                yield f"{thread} t {name} {queues[thread].popleft()}\n"
            else:
                yield f"{thread} {BLOCKS[kind](pick, name)}\n"
        elif kind == "vector" and sizes[key] < LONGEST:
            sizes[key] += sizes[key] // 2
            yield f"{thread} r {name} {sizes[key]}\n"
        else:
            del sizes[key]
            if next_tray < TRAYS and pick.randrange(8) == 0:
                queues[(thread + 1) % threads].append(next_tray)
                yield f"{thread} p {name} {next_tray}\n"
                next_tray += 1
            else:
                yield f"{thread} f {name}\n"


def lines_of(kind, lines, names):
    kind, _, threads = kind.partition("/")
    return trace_of_threads(kind, int(threads), lines, names) if threads else trace(kind, lines, names)


def lines_that_fill(kind, names):
    """Behind so many lines about as many names are live as will be: half of them, or 49 in 100 where they are picked."""
    return names // 2 if kind.startswith("queue") else 2 * names


def write_trace(path, kind, lines, names):
    with open(path, "w") as file:
        file.writelines(lines_of(kind, lines, names))


def write_head(path, source, kind, names):
    """Those lines of a trace alone that fill its names."""
    with open(source) as whole, open(path, "w") as file:
        file.writelines(islice(whole, lines_that_fill(kind, names) + 1))

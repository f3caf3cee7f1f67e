"""Random guests of several threads: they load words of the input and of shared pages, go one way or the other by what
they loaded, store, spin, and make every kind of call. Most of them end by an exit; some deadlock or trap."""
import random

from executables import EXECUTE, PAGE, READ, WRITE

from .words import LW, addi, branch_word, call, executable, load, load_number, register_word, segment, store_word

MAIN, BODIES, DATA, INPUT = 0x10000, 0x20000, 0x30000, 0xC0001000
PAGES = 3
TOTAL, NUMBER = 8, 9  # registers: what a thread sums, its argument
EXIT, PUT, CREATE, THREAD_EXIT, JOIN, YIELD = range(6)
LOCK, TRYLOCK, UNLOCK, SEM_WAIT, SEM_TRYWAIT, SEM_POST, SEM_INIT = range(6, 13)
BARRIER_INIT, BARRIER_WAIT, COND_WAIT, SIGNAL, BROADCAST = range(13, 18)
RDLOCK, WRLOCK, RWUNLOCK, TRYWRLOCK = range(18, 22)


def shared_address(draw):
    return DATA + PAGE * draw.randrange(PAGES) + 4 * draw.randrange(6)


def loaded(draw):
    """A word of the input or of shared memory is added to the total."""
    address = INPUT + PAGE * draw.randrange(2) + 4 * draw.randrange(3) if draw.random() < 0.5 else shared_address(draw)
    return load_number(6, address) + [load(LW, 5, 6, 0), register_word(0, 5, TOTAL, 0, TOTAL)]


def stored(draw):
    """The total, its low half or its lowest byte, is stored to shared memory."""
    return load_number(6, shared_address(draw)) + [store_word(0, TOTAL, 6, draw.randrange(3))]


def spun(draw):
    """A loop of some turns."""
    return [addi(7, 0, draw.randrange(1, 60)), addi(7, 7, -1), branch_word(-4, 0, 7, 1)]


def work(draw):
    """Some loads, stores and turns, of which one part may be passed over by what was loaded."""
    part = [word for _ in range(draw.randrange(4)) for word in draw.choice((loaded, stored, spun))(draw)]
    if draw.random() < 0.3:
        part = [addi(5, TOTAL, 0), *branch_over(part + [addi(TOTAL, TOTAL, 1)])]
    return part


def branch_over(part):
    """A part that is done where the lowest bit of x5 is set."""
    return [0x0012F293, branch_word(4 * len(part) + 4, 0, 5, 0), *part]  # andi t0, t0, 1


def under_mutex(draw):
    mutex = draw.randrange(2)
    return call(LOCK, mutex) + loaded(draw) + stored(draw) + call(UNLOCK, mutex)


def under_rwlock(draw):
    lock, writes = draw.randrange(2), draw.random() < 0.4
    return call(WRLOCK if writes else RDLOCK, lock) + loaded(draw) + stored(draw) * writes + call(RWUNLOCK, lock)


def waited(draw):
    """A wait for a condition, with its mutex."""
    mutex = draw.randrange(2)
    return call(LOCK, mutex) + call(COND_WAIT, draw.randrange(2), mutex) + stored(draw) + call(UNLOCK, mutex)


def any_call(draw):
    """A call of any kind that returns in most cases."""
    kinds = ((YIELD,), (YIELD,), (TRYLOCK, draw.randrange(3)), (UNLOCK, draw.randrange(3)),
             (SEM_POST, draw.randrange(2)), (SEM_POST, draw.randrange(2)), (SEM_TRYWAIT, draw.randrange(2)),
             (SEM_WAIT, draw.randrange(2)), (SIGNAL, draw.randrange(2)), (BROADCAST, draw.randrange(2)), (LOCK, 70),
             (SEM_INIT, 2, 3), (BARRIER_INIT, 3, draw.randrange(3)), (TRYWRLOCK, draw.randrange(3)),
             (RWUNLOCK, draw.randrange(3)), (RDLOCK, draw.choice((2, 64))), (WRLOCK, 64))
    return call(*draw.choice(kinds))


PARTS = ((0.25, under_mutex), (0.4, under_rwlock), (0.43, waited), (0.9, any_call))


def body(draw, has_barrier):
    """What a thread does; the barrier, if there is one, is met once by each."""
    parts = []
    for _ in range(draw.randrange(2, 8)):
        kind = draw.random()
        made = next((make for most, make in PARTS if kind < most), None)
        parts.append(work(draw) + (made(draw) if made else []))
    if has_barrier:
        parts.insert(draw.randrange(len(parts)), call(BARRIER_WAIT, 0))
    words = [addi(TOTAL, 10, 0)] + [word for part in parts for word in part]
    return words + [addi(10, TOTAL, 0)] + call(THREAD_EXIT)


def thread_guest(seed):
    """A guest of two to seven threads, as an executable."""
    draw = random.Random(seed)
    count, has_barrier = draw.randrange(1, 7), draw.random() < 0.4
    main = call(SEM_INIT, 0, draw.randrange(3)) + call(BARRIER_INIT, 0, count + 1)
    for number in range(count):
        main += load_number(10, BODIES + PAGE * draw.randrange(count)) + [addi(11, 0, number + 1)] + call(CREATE)
        main += work(draw)
    main += call(BARRIER_WAIT, 0) * has_barrier
    for number in draw.sample(range(1, count + 1), count):
        main += call(JOIN, number) + [register_word(0, 11, TOTAL, 0, TOTAL)] + stored(draw)
    for page in range(PAGES):
        main += load_number(10, DATA + PAGE * page) + [addi(11, 0, 24)] + call(PUT)
    main += [addi(10, TOTAL, 0)] + call(EXIT)
    segments = [segment(MAIN, main, READ | EXECUTE), (DATA, READ | WRITE, b"", PAGES * PAGE)]
    segments += [segment(BODIES + PAGE * number, body(draw, has_barrier), READ | EXECUTE) for number in range(count)]
    return executable(MAIN, segments)

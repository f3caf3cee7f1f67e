"""The calls of the machine, by docs/MACHINE.md: `CALLS` has their names and numbers, and `Calls` does what each does to
threads and objects.

It shares no code with the program. Two machines stand on it, machine.py beside this file and .ci/oracle/machine.py;
memory, views and registers are theirs, each in a way of its own.
"""
from collections.abc import Callable
from dataclasses import dataclass

EPERM, ESRCH, EAGAIN, EFAULT, EBUSY, EINVAL, EDEADLK, EOVERFLOW = -1, -3, -11, -14, -16, -22, -35, -75
OBJECTS, THREADS = 64, 32
MOST_VALUE, MOST_PUT = 2**31 - 1, 4096


class Calls:
    """What calls do.

    A machine also has `threads`, each with a `status`, a `value` and a `joiner`; `begin`, which adds a thread; and
    `answer`, by which a call of a thread returns. A call answers a number, or None if the thread waits, or has its
    answer by then."""

    def __init__(self):
        self.queues = {}  # of an object, a kind and a number, who waits for it
        self.owner, self.mutex_of = {}, {}  # of a mutex its owner; of a thread that waits for a condition, its mutex
        self.values, self.needed = [0] * OBJECTS, [0] * OBJECTS  # of semaphores, and of barriers
        self.writer, self.readers = {}, [set() for _ in range(OBJECTS)]  # of reader-writer locks
        self.to_write = set()  # the threads that wait for a reader-writer lock to write

    def queue(self, kind, place):
        return self.queues.setdefault((kind, place), [])

    def wait(self, number, _kind, _place):
        """A thread waits for an object; or for the end of a thread."""
        self.threads[number].status = "blocked"

    def block(self, number, kind, place):
        self.queue(kind, place).append(number)
        self.wait(number, kind, place)

    # Threads.

    def create(self, _, pc, argument):
        if pc % 4:
            return EINVAL
        if len(self.threads) == THREADS:
            return EAGAIN
        self.begin(pc, argument)
        return len(self.threads) - 1

    def thread_exit(self, number, value, _):
        thread = self.threads[number]
        thread.status, thread.value = "ended", value
        if thread.joiner is not None:
            self.answer(thread.joiner, 0, value)

    def join(self, number, other, _):
        if other >= len(self.threads):
            return ESRCH
        if other == number:
            return EDEADLK
        joined = self.threads[other]
        if joined.joiner is not None:
            return EINVAL
        joined.joiner = number
        if joined.status == "ended":
            return self.answer(number, 0, joined.value)
        return self.wait(number, "end", other)

    def take_turns(self, _, __, ___):
        return 0

    # Mutexes.

    def lock(self, number, mutex, _):
        if mutex >= OBJECTS:
            return EINVAL
        if mutex not in self.owner:
            self.owner[mutex] = number
            return 0
        return EDEADLK if self.owner[mutex] == number else self.block(number, "mutex", mutex)

    def trylock(self, number, mutex, _):
        return EBUSY if mutex < OBJECTS and mutex in self.owner else self.lock(number, mutex, _)

    def unlock(self, number, mutex, _):
        if mutex >= OBJECTS:
            return EINVAL
        if self.owner.get(mutex) != number:
            return EPERM
        self.give_up(mutex)
        return 0

    def give_up(self, mutex):
        """A mutex goes to the first who waits, if there is one."""
        del self.owner[mutex]
        if queue := self.queue("mutex", mutex):
            self.owner[mutex] = queue.pop(0)
            self.answer(self.owner[mutex], 0)

    # Semaphores and barriers.

    def sem_wait(self, number, place, _):
        if place >= OBJECTS:
            return EINVAL
        if self.values[place] == 0:
            return self.block(number, "semaphore", place)
        self.values[place] -= 1
        return 0

    def sem_trywait(self, number, place, _):
        return EAGAIN if place < OBJECTS and self.values[place] == 0 else self.sem_wait(number, place, _)

    def sem_post(self, _, place, __):
        if place >= OBJECTS:
            return EINVAL
        if queue := self.queue("semaphore", place):
            self.answer(queue.pop(0), 0)
        elif self.values[place] == MOST_VALUE:
            return EOVERFLOW
        else:
            self.values[place] += 1
        return 0

    def sem_init(self, _, place, value):
        if place >= OBJECTS or value > MOST_VALUE:
            return EINVAL
        if self.queue("semaphore", place):
            return EBUSY
        self.values[place] = value
        return 0

    def barrier_init(self, _, place, count):
        if place >= OBJECTS or not 0 < count <= THREADS:
            return EINVAL
        if self.queue("barrier", place):
            return EBUSY
        self.needed[place] = count
        return 0

    def barrier_wait(self, number, place, _):
        if place >= OBJECTS or self.needed[place] == 0:
            return EINVAL
        queue = self.queue("barrier", place)
        if len(queue) + 1 < self.needed[place]:
            return self.block(number, "barrier", place)
        while queue:
            self.answer(queue.pop(0), 0)
        return 1

    # Conditions.

    def cond_wait(self, number, condition, mutex):
        if condition >= OBJECTS or mutex >= OBJECTS:
            return EINVAL
        if self.owner.get(mutex) != number:
            return EPERM
        if any(self.mutex_of[other] != mutex for other in self.queue("condition", condition)):
            return EINVAL
        self.mutex_of[number] = mutex
        self.block(number, "condition", condition)
        return self.give_up(mutex)

    def signal(self, _, condition, __):
        return EINVAL if condition >= OBJECTS else self.wake(condition, 1)

    def broadcast(self, _, condition, __):
        return EINVAL if condition >= OBJECTS else self.wake(condition, THREADS)

    def wake(self, condition, most):
        """So many at most leave a condition, and each comes to its mutex."""
        queue = self.queue("condition", condition)
        for number in [queue.pop(0) for _ in range(min(most, len(queue)))]:
            mutex = self.mutex_of.pop(number)
            if mutex in self.owner:
                self.block(number, "mutex", mutex)
            else:
                self.owner[mutex] = number
                self.answer(number, 0)
        return 0

    # Reader-writer locks.

    def holders(self, lock):
        """The readers of a reader-writer lock, or its writer."""
        return {self.writer[lock]} if lock in self.writer else self.readers[lock]

    def rdlock(self, number, lock, _):
        if lock >= OBJECTS:
            return EINVAL
        if number in self.holders(lock):
            return EDEADLK if lock in self.writer else EAGAIN
        if lock in self.writer or self.queue("rwlock", lock):
            return self.block(number, "rwlock", lock)
        self.readers[lock].add(number)
        return 0

    def wrlock(self, number, lock, _):
        if lock >= OBJECTS:
            return EINVAL
        if number in self.holders(lock):
            return EDEADLK
        if self.holders(lock):
            self.to_write.add(number)
            return self.block(number, "rwlock", lock)
        self.writer[lock] = number
        return 0

    def trywrlock(self, number, lock, _):
        return EBUSY if lock < OBJECTS and self.holders(lock) else self.wrlock(number, lock, _)

    def rwunlock(self, number, lock, _):
        if lock >= OBJECTS:
            return EINVAL
        if number not in self.holders(lock):
            return EPERM
        self.writer.pop(lock, None)
        self.readers[lock].discard(number)
        self.hand_on(lock)
        return 0

    def hand_on(self, lock):
        """Who waits to read before the first who waits to write reads now; if then nobody holds the lock, the first
        writes."""
        queue = self.queue("rwlock", lock)
        while queue and queue[0] not in self.to_write:
            self.readers[lock].add(queue[0])
            self.answer(queue.pop(0), 0)
        if queue and not self.holders(lock):
            self.writer[lock] = queue.pop(0)
            self.to_write.remove(self.writer[lock])
            self.answer(self.writer[lock], 0)


@dataclass(frozen=True)
class Call:
    """A call: its name, how many arguments it has, what does it, and the kind of object whose number the first argument
    is. The machines themselves end runs and put bytes."""

    name: str
    arguments: int
    does: Callable | None
    kind: str | None = None


CALLS = (  # by their numbers
    Call("exit", 1, None),
    Call("put", 2, None),
    Call("create", 2, Calls.create),
    Call("thread_exit", 1, Calls.thread_exit),
    Call("join", 1, Calls.join),
    Call("yield", 0, Calls.take_turns),
    Call("lock", 1, Calls.lock, "mutex"),
    Call("trylock", 1, Calls.trylock, "mutex"),
    Call("unlock", 1, Calls.unlock, "mutex"),
    Call("sem_wait", 1, Calls.sem_wait, "semaphore"),
    Call("sem_trywait", 1, Calls.sem_trywait, "semaphore"),
    Call("sem_post", 1, Calls.sem_post, "semaphore"),
    Call("sem_init", 2, Calls.sem_init, "semaphore"),
    Call("barrier_init", 2, Calls.barrier_init, "barrier"),
    Call("barrier_wait", 1, Calls.barrier_wait, "barrier"),
    Call("cond_wait", 2, Calls.cond_wait, "condition"),
    Call("signal", 1, Calls.signal, "condition"),
    Call("broadcast", 1, Calls.broadcast, "condition"),
    Call("rdlock", 1, Calls.rdlock, "rwlock"),
    Call("wrlock", 1, Calls.wrlock, "rwlock"),
    Call("rwunlock", 1, Calls.rwunlock, "rwlock"),
    Call("trywrlock", 1, Calls.trywrlock, "rwlock"),
)
EXIT, PUT, CREATE, THREAD_EXIT, JOIN = range(5)
SEM_INIT, BARRIER_INIT, COND_WAIT = 12, 13, 15

"""What an earlier round says of the next one, by docs/MACHINE.md: the record of a thread's next step, which steps must
come before it, the choice of one worker, and which steps a change of the input reaches."""
from calls import THREADS


class History:
    """The steps of an earlier round, by thread and number, each with its place and with its clock: how many steps of
    each thread are that step or must come before it, directly or through others."""

    def __init__(self, steps=()):
        self.steps, self.place, self.clocks = steps, {}, []
        for place, step in enumerate(steps):
            self.place[step.record.thread, step.record.number] = place
        self.count()

    def count(self):
        """The clocks. What a step must come behind is covered by the last step of its thread, the one that gave its
        view, the last that acted on an object, the last that stored to a page, and those that opened it since; a step
        opens the pages that the next steps of those read to whom it gave a view. The step that ends the run comes
        behind all."""
        made, own, giver, actor, writer, openers = [0] * THREADS, {}, {}, {}, {}, {}
        for step in self.steps:
            thread, stored = step.record.thread, step.record.stores
            made[thread] += 1
            opened = self.opened(step, made)
            before = [own.get(thread), giver.pop(thread, None), *(actor.get(one) for one in step.objects)]
            before += [writer.get(page) for page in opened.union(stored)]
            before += [clock for page in stored for clock in openers.get(page, ())]
            before += own.values() if step.is_last else ()
            clock = [max(counts) for counts in zip([0] * THREADS, *(clock for clock in before if clock))]
            clock[thread] = made[thread]
            self.clocks.append(clock)
            own[thread] = clock
            giver.update((other, clock) for other in step.given)
            actor.update((one, clock) for one in step.objects)
            for page in stored:
                writer[page], openers[page] = clock, []
            for page in opened:
                openers.setdefault(page, []).append(clock)

    def opened(self, step, made):
        """The pages that the next steps read of the threads to which a step gave a view."""
        following = (self.place.get((other, made[other])) for other in step.given)
        return {page for place in following if place is not None for page in self.steps[place].record.reads}

    def giver(self, place):
        """The place of the step that gave a step its view; none where the start did."""
        thread = self.steps[place].record.thread
        for earlier in range(place - 1, -1, -1):
            if thread in self.steps[earlier].given:
                return earlier
            if self.steps[earlier].record.thread == thread:
                return None
        return None

    def reached(self, changed):
        """For each step whether changed pages reach it: it reads one of them; or a step before it is reached, and is
        the last before it of its thread, or stored to a page that it reads, no later than its view was given."""
        reached, last = [], {}
        for place, step in enumerate(self.steps):
            giver, earlier = self.giver(place), last.get(step.record.thread)
            writers, reads = range(giver + 1) if giver is not None else (), step.record.reads.keys()
            reached.append(not changed.isdisjoint(reads) or earlier is not None and reached[earlier] or any(
                reached[other] and not reads.isdisjoint(self.steps[other].record.stores) for other in writers))
            last[step.record.thread] = place
        return reached

    def next_place(self, machine, number):
        """The place of the record of a thread's next step; None where there is none."""
        return self.place.get((number, machine.threads[number].made))

    def next_record(self, machine, number):
        place = self.next_place(machine, number)
        return None if place is None else self.steps[place].record


NOTHING = History()


def changed_pages(machine, other):
    """The pages where the memories of two machines differ."""
    return {page for page, content in machine.shared.items() if other.shared[page] != content}


def is_due(machine, history, place):
    """Whether each step of the history that must come before the one at a place was made, or is one of a thread that
    has ended."""
    own, threads = history.steps[place].record.thread, machine.threads
    return all(other == own or count == 0
               or other < len(threads) and (count <= threads[other].made or threads[other].status == "ended")
               for other, count in enumerate(history.clocks[place]))


def lone_pick(machine, history, running=()):
    """The thread whose step a worker makes next, while others execute steps of the threads `running`; None if a commit
    must be waited for, or nothing is ready."""
    ready = [number for number in range(len(machine.threads)) if machine.is_ready(number) and number not in running]
    places = {number: history.next_place(machine, number) for number in ready}

    def rank(number):
        return places[number] is None, places[number] or 0, machine.threads[number].made, number

    due = [number for number in ready if places[number] is None or is_due(machine, history, places[number])]
    return min(due or (() if running else ready), key=rank, default=None)


def reuse(machine, history, number):
    """One step of a thread, by its record where that fits; its mark."""
    record = history.next_record(machine, number)
    if machine.fits(number, record):
        machine.apply(record)
        return "="
    machine.make(number)
    return "+"


def execute(machine, history, number):
    """One step of a thread, which is executed, whatever record there is; the mark that it has to have."""
    mark = "=" if machine.fits(number, history.next_record(machine, number)) else "+"
    machine.make(number)
    return mark


def alone(machine, history=NOTHING, step=execute):
    """The round of one worker on a machine at its start: its schedule, with marks."""
    schedule = []
    while machine.ended is None:
        number = lone_pick(machine, history)
        schedule.append([number, step(machine, history, number)])
    return schedule

"""One order of the facts of all tracks that agrees with all demands; or a cycle, which says that no safe one exists.

Tracks advance as far as their demands let them. Where a slot could be taken by one of several tenures next, the choice waits
until nothing else can go on; if a choice leads into a cycle it is turned round, and the merge begins anew.
"""
from __future__ import annotations

from collections import deque
from typing import Deque, Dict, List, NamedTuple, Optional, Sequence, Tuple

from exporting.demands import Demands, Edge, why_text
from exporting.history import Fact, Slot, Tenure

MOST_RUNS = 200         # tries, before a merge is given up as undecided
Choice = Tuple[int, int]        # the number of a `freed`, and of the `granted` that is to come behind it


class Step(NamedTuple):
    """A fact, and why the next one of a cycle must come behind it."""
    fact: Fact
    why: str
    since: Optional[Tuple[Fact, Fact]] = None       # of two tenures: a fact of each, of which one must come before the other


class NoOrder(Exception):
    """There is no safe order of these facts: each cycle's facts come before one another. `cycles` has one, or two that
    differ by the choice that they begin with."""

    def __init__(self, cycles: List[List[Step]]) -> None:
        super().__init__('no order of these lines is safe')
        self.cycles = cycles


class Undecided(Exception):
    """No safe order was found, and none is excluded."""


class Stuck(NamedTuple):
    """A cycle that a run came to: pairs of a fact and the one that must come behind it, with why; and the choices in it."""
    edges: List[Tuple[int, int, str]]
    choices: List[Choice]


class Run:
    """One try, under choices that are settled."""

    def __init__(self, merge: 'Merge', settled: Sequence[Choice]) -> None:
        self.merge, self.settled = merge, settled
        self.order: List[int] = []
        self.heads = list(merge.firsts)
        self.wait = list(merge.wait)
        self.more: Dict[int, List[int]] = {}            # behind which facts others come by a settled choice
        for first, second in settled:
            self.wait[second] += 1
            self.more.setdefault(first, []).append(second)
        self.holder: Dict[Slot, Optional[Tenure]] = {}
        self.left = {slot: len(tenures) for slot, tenures in merge.free.items()}
        self.waiting: Dict[Slot, List[int]] = {}        # tracks that wait for a slot
        self.deferred: List[int] = []                   # tracks that wait for a choice
        self.taken: Optional[int] = None                # the grant that is chosen now

    def go(self) -> Optional[Stuck]:
        work = list(range(len(self.heads) - 1, -1, -1))
        while True:
            while work:
                self._advance(work.pop(), work)
            track = self._chosen()
            if track is None:
                return None if len(self.order) == len(self.merge.facts) else self._stuck()
            self.taken = self.heads[track]
            work.append(track)

    def _advance(self, track: int, work: List[int]) -> None:
        at, end = self.heads[track], self.merge.ends[track]
        wait, order, behind, track_of, flagged = self.wait, self.order, self.merge.behind, self.merge.track_of, self.merge.flagged
        while at < end and not wait[at] and not (flagged[at] and not self._passes(at, track, work)):
            order.append(at)
            for others in (behind.get(at, ()), self.more.get(at, ())):
                for it in others:
                    wait[it] -= 1
                    if not wait[it] and self.heads[track_of[it]] == it:
                        work.append(track_of[it])
            at += 1
            self.heads[track] = at

    def _passes(self, at: int, track: int, work: List[int]) -> bool:
        """Whether a grant can be made now, and notes it; a slot that is given back is noted too."""
        fact = self.merge.facts[at]
        tenure, slot = fact.tenure, fact.of
        if fact.kind == 'freed':
            self.holder[slot] = None
            work.extend(self.waiting.pop(slot, ()))
            return True
        holder = self.holder.get(slot)
        if holder is not None and holder.freed is not None:
            self.waiting.setdefault(slot, []).append(track)
            return False
        if self.left[slot] > 1 and self.taken != at:
            self.deferred.append(track)
            return False
        self.left[slot] -= 1
        self.holder[slot] = tenure
        return True

    def _chosen(self) -> Optional[int]:
        """The track whose grant is taken, of those that wait for a choice: the one of the node that has the most to come."""
        best: Optional[int] = None
        left = []
        for track in dict.fromkeys(self.deferred):
            slot = self.merge.facts[self.heads[track]].of
            holder = self.holder.get(slot)
            if holder is not None and holder.freed is not None:
                self.waiting.setdefault(slot, []).append(track)
                continue
            left.append(track)
            if best is None or self._done(track) < self._done(best):
                best = track
        self.deferred = [it for it in left if it != best]
        return best

    def _done(self, track: int) -> float:
        first, total = self.merge.spans[track]
        return (self.heads[track] - self.merge.firsts[track] + first) / total

    # a cycle

    def _blockers(self, at: int) -> List[Edge]:
        """What a fact that can't come next waits for."""
        merge = self.merge
        found = [it for it in merge.before.get(at, ()) if it[0] >= self.heads[merge.track_of[it[0]]]]
        found += [(first, 'chosen') for first, second in self.settled if second == at and first >= self.heads[merge.track_of[first]]]
        fact = merge.facts[at]
        holder = self.holder.get(fact.of) if merge.flagged[at] and fact.kind == 'granted' else None
        if holder is not None and holder.freed is not None and not self.wait[at]:
            found.append((holder.freed.index, 'chosen'))
        return found

    def _stuck(self) -> Stuck:
        """The shortest cycle among the facts that come next in their tracks."""
        merge = self.merge
        heads = [at for at, end in zip(self.heads, merge.ends) if at < end]
        blockers = {at: self._blockers(at) for at in heads}
        best: List[int] = []
        for start in heads[:400]:
            found = self._cycle_from(start, blockers)
            if found and (not best or len(found) < len(best)):
                best = found
            if len(best) == 1:
                break
        edges = []
        for at, behind in zip(best, best[1:] + best[:1]):
            # (`at` waits for a fact in the track whose next one is `behind`)
            first, why = next(it for it in blockers[at] if self.heads[merge.track_of[it[0]]] == behind)
            edges.append((first, at, why))
        settled = set(self.settled)
        return Stuck(edges, [(first, second) for first, second, why in edges if why == 'chosen' and (first, second) not in settled])

    def _cycle_from(self, start: int, blockers: Dict[int, List[Edge]]) -> List[int]:
        """The shortest way from a fact back to it, from each to one that it waits for; nothing where there is none."""
        came: Dict[int, int] = {}
        todo: Deque[int] = deque([start])
        while todo:
            at = todo.popleft()
            for first, _ in blockers[at]:
                head = self.heads[self.merge.track_of[first]]
                if head == start:
                    way = [at]
                    while way[-1] != start:
                        way.append(came[way[-1]])
                    return way[::-1]
                if head not in came:
                    came[head] = at
                    todo.append(head)
        return []


class Merge:
    """The facts and demands as numbers, and the search for an order."""

    def __init__(self, demands: Demands) -> None:
        self.facts, self.before, self.since = demands.facts, demands.before, demands.since
        history = demands.history
        self.firsts, self.ends, self.track_of = [], [], [0] * len(self.facts)
        at = 0
        for number, track in enumerate(history.tracks):
            self.firsts.append(at)
            self.track_of[at:at + len(track.facts)] = [number] * len(track.facts)
            at += len(track.facts)
            self.ends.append(at)
        self.wait = [0] * len(self.facts)
        self.behind: Dict[int, List[int]] = {}
        for second, edges in self.before.items():
            self.wait[second] = len(edges)
            for first, _ in edges:
                self.behind.setdefault(first, []).append(second)
        self.free = {slot: it for slot, it in history.tenures.items() if demands.is_free(it)}
        self.flagged = bytearray(len(self.facts))
        for tenures in self.free.values():
            for it in tenures:
                self.flagged[it.granted.index] = 1
                if it.freed:
                    self.flagged[it.freed.index] = 1
        self.spans = self._spans(history.tracks)

    @staticmethod
    def _spans(tracks: Sequence) -> List[Tuple[int, int]]:
        """Of each track how many facts of its node come before it, and how many the node has."""
        totals: Dict[object, int] = {}
        firsts = []
        for number, track in enumerate(tracks):
            node = track.who[0] if track.who else number
            firsts.append((totals.get(node, 0), node))
            totals[node] = totals.get(node, 0) + len(track.facts)
        return [(first, max(totals[node], 1)) for first, node in firsts]

    def order(self) -> List[Fact]:
        """All facts in one order that agrees with all demands."""
        todo: List[List[Choice]] = [[]]
        cycles: List[Stuck] = []
        for _ in range(MOST_RUNS):
            if not todo:
                raise NoOrder([self._steps(it) for it in told(cycles)])
            settled = todo.pop()
            run = Run(self, settled)
            stuck = run.go()
            if stuck is None:
                return [self.facts[at] for at in run.order]
            cycles.append(stuck)
            # (one of the cycle's choices must be the other way round: the last, or the one before and not the last, ..)
            for at, choice in enumerate(stuck.choices):
                todo.append(settled + stuck.choices[:at] + [self._turned(choice)])
        raise Undecided(f'{MOST_RUNS} orders of the slots were tried, none of them is safe, and there are more')

    def _turned(self, choice: Choice) -> Choice:
        """The other order of two tenures."""
        first, second = self.facts[choice[0]].tenure, self.facts[choice[1]].tenure
        return second.freed.index, first.granted.index

    def _steps(self, stuck: Stuck) -> List[Step]:
        """A cycle's facts, each with why the next one comes behind it."""
        steps: List[Step] = []
        edges = stuck.edges[::-1]
        for (first, second, why), (following, _, _) in zip(edges, edges[1:] + edges[:1]):
            steps.append(Step(self.facts[first], why_text(why), self.since.get((first, second)) if why == 'held' else None))
            if second != following:
                steps.append(Step(self.facts[second], why_text('own')))
        return steps


def told(cycles: Sequence[Stuck]) -> List[Stuck]:
    """The cycles that are told: one without a choice, if there is one, else the first and the last."""
    certain = [it for it in cycles if all(why != 'chosen' for _, _, why in it.edges)]
    return certain[:1] or [cycles[0]] + ([cycles[-1]] if len(cycles) > 1 else [])

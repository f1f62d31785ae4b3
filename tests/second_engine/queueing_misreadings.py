"""Known misreadings of queues, each as an evaluation with one other method, to see whether random calls expose it."""
from evaluation import DONE, first_failing
from queueing import MOST_ENTRIES, PLAN_ROOM, Queueing, Serve, over


class PastTheAllowance(Queueing):
    """a turn runs for the quantum, past the steps left"""
    def steps(self, call, entry):
        return call.quantum

    def left(self, entry, turned):
        return max(0, entry.allowance - turned.steps)


class BackToTheFront(Queueing):
    """an unfinished entry goes to the front of the line"""
    def goes(self, line, aside, entry, turned):
        if turned.ending != DONE and entry.allowance:
            line.insert(0, entry)
        else:
            super().goes(line, aside, entry, turned)


class StepsNotDeducted(Queueing):
    """the steps of a turn are not deducted"""
    def left(self, entry, turned):
        return entry.allowance


class LeftBefore(Queueing):
    """the answer has what was left before the turn"""
    def service(self, front, turned, line, aside):
        return super().service(front, turned, line, aside)._replace(left=front.allowance)


class DoneHasNothingLeft(Queueing):
    """the answer of a turn that is done has nothing left"""
    def service(self, front, turned, line, aside):
        served = super().service(front, turned, line, aside)
        return served._replace(left=0) if turned.ending == DONE else served


class CountStale(Queueing):
    """the count of the saved words stays as it was"""
    def after(self, entry, turned, state):
        return super().after(entry, turned, state)._replace(state_words=entry.state_words)


class StateZeroed(Queueing):
    """what stands behind the new state is set to 0"""
    def after(self, entry, turned, state):
        count = turned.state_words
        return super().after(entry, turned, tuple(state[:count]) + (0,) * (len(state) - count))


class StaysInTheLine(Queueing):
    """an entry without steps stays in the line"""
    def goes(self, line, aside, entry, turned):
        if turned.ending != DONE:
            line.append(entry)


class DoneStays(Queueing):
    """an entry that is done stays"""
    def goes(self, line, aside, entry, turned):
        (line if entry.allowance else aside).append(entry)


class AsideToTheFront(Queueing):
    """an entry without steps goes to the front of the list set aside"""
    def goes(self, line, aside, entry, turned):
        if turned.ending != DONE and not entry.allowance:
            aside.insert(0, entry)
        else:
            super().goes(line, aside, entry, turned)


class ToppedUpToTheFront(Queueing):
    """a topped-up entry comes to the front of the line"""
    def comes_back(self, line, entry):
        line.insert(0, entry)


class LineAlone(Queueing):
    """an owner is looked up in the line alone"""
    def owners_right(self, line, aside, joining):
        return super().owners_right(line, (), joining) and super().owners_right((), aside, ())


class AsideAlone(Queueing):
    """an owner is looked up in the list set aside alone"""
    def owners_right(self, line, aside, joining):
        return super().owners_right((), aside, joining) and super().owners_right(line, (), ())


class NewcomerAlone(Queueing):
    """two lent entries of one owner are let pass"""
    def owners_right(self, line, aside, joining):
        return not set(joining) & {entry.owner for entry in (*line, *aside)}


class First32(Queueing):
    """test 17 looks at the first 32 entries of a list alone"""
    def entries_right(self, call, joining=()):
        few = {name: min(getattr(call, name), MOST_ENTRIES) for name in ('waiting', 'resting')}
        return super().entries_right(call._replace(**few), joining)


class StepsOfTheLine(Queueing):
    """an entry with steps that is set aside is let pass"""
    def steps_right(self, line, aside):
        return super().steps_right(line, ())


class StepsSetAside(Queueing):
    """an entry without steps in the line is let pass"""
    def steps_right(self, line, aside):
        return super().steps_right((), aside)


class RoomFirst(Queueing):
    """18 is tested before 17"""
    def serve_tests(self, call, line):
        entries, room, empty = super().serve_tests(call, line)
        return [room, entries, empty]

    def join_tests(self, call):
        return super().join_tests(call)[::-1]

    def top_up_tests(self, call):
        return super().top_up_tests(call)[::-1]


class EmptyFirst(Queueing):
    """19 is tested before 17"""
    def serve_tests(self, call, line):
        return super().serve_tests(call, line)[::-1]


class ListsBeforeTheQuery(Queueing):
    """17 and 18 are tested before the plan and the state"""
    def join(self, *call):
        late = super().join(*call)
        made = type(self).made(call)
        refused = self.calls.tables_refused(made.tables) or first_failing(self.join_tests(made) + self.query_tests(made))
        return (late[0]._replace(refused=refused), *late[1:]) if refused else late

    @staticmethod
    def made(call):
        from queueing import Join
        return Join(*call)


class ListsBeforeTheFront(Queueing):
    """17 and 18 are tested before the front entry"""
    def serve(self, *call):
        made = Serve(*call)
        line = made.line[:made.waiting]
        refused = self.calls.tables_refused(made.tables) or first_failing(self.serve_tests(made, line)) or self.front_refused(made, line)
        return self.refused_service(made, refused) if refused else super().serve(*call)


class RoomFor31(Queueing):
    """a 32nd entry is refused"""
    def room_right(self, call, more):
        return super().room_right(call, more) and call.waiting + call.resting + more < MOST_ENTRIES


class RoomFor33(Queueing):
    """a 33rd entry may join"""
    def room_right(self, call, more):
        return super().room_right(call, 0)


class RoomAsNeeded(Queueing):
    """a buffer of fewer than 32 entries is enough if the entries fit"""
    def room_right(self, call, more):
        return len(call.line) >= call.waiting + more and len(call.aside) >= call.resting + more and call.waiting + call.resting + more <= MOST_ENTRIES


class EachList32(Queueing):
    """each list may have 32 entries"""
    def room_right(self, call, more):
        return min(len(call.line), len(call.aside)) >= MOST_ENTRIES and max(call.waiting, call.resting) + more <= MOST_ENTRIES


class QuantumOfTheTurn(Queueing):
    """8 is tested on the lesser of the quantum and the steps left: an allowance of 0 is refused by 8"""
    def front_refused(self, call, line):
        return self.turn(call, line[0], min(call.quantum, line[0].allowance))[0].refused if line else super().front_refused(call, line)


class EmptyLineUntested(Queueing):
    """with an empty line neither the tables nor the quantum are tested"""
    def front_refused(self, call, line):
        return super().front_refused(call, line) if line else 0


class EmptyLineOfAnyNumber(Queueing):
    """with an empty line the survey's number is not tested"""
    def front_refused(self, call, line):
        return super().front_refused(call if line else call._replace(survey=0), line)


class JoinsAnySurvey(Queueing):
    """a state of another survey may join"""
    def query_tests(self, call):
        return [test for test in super().query_tests(call) if test[0] != 22]


class RefusedRotates(Queueing):
    """a refused serve puts the front entry to the back"""
    def refused_service(self, call, number):
        answer, line, aside, output = super().refused_service(call, number)
        own = list(line[:call.waiting])
        return answer, over(own[1:] + own[:1], line), aside, output


class ZeroJoinsTheLine(Queueing):
    """a query that joins without steps waits in the line"""
    def join(self, *call):
        answer, line, aside = super().join(*call)
        made = ListsBeforeTheQuery.made(call)
        if answer.refused or made.allowance:
            return answer, line, aside
        own = list(made.line[:made.waiting]) + [self.joined(made)]
        return answer._replace(line_entries=len(own), aside_entries=made.resting), over(own, made.line), made.aside


class ArraysKept(Queueing):
    """what stands behind a joined plan is left as it was in the buffer"""
    def join(self, *call):
        answer, line, aside = super().join(*call)
        made = ListsBeforeTheQuery.made(call)
        if answer.refused or not made.allowance:
            return answer, line, aside
        place, count = made.waiting, len(made.plan)
        kept = line[place]._replace(plan=tuple(made.plan) + made.line[place].plan[count:PLAN_ROOM])
        return answer, line[:place] + (kept,) + line[place + 1:], aside


class TopUpOfNothing(Queueing):
    """a top-up of 0 is taken"""
    def top_up_tests(self, call):
        return super().top_up_tests(call._replace(amount=max(1, call.amount)))


class BehindTheLists(Queueing):
    """the place behind a shortened list is cleared"""
    def serve(self, *call):
        answer, line, aside, output = super().serve(*call)
        made = Serve(*call)
        if answer.refused or answer.line_entries == made.waiting:
            return answer, line, aside, output
        gone = line[made.waiting - 1]._replace(allowance=0, owner=0, plan_words=0, state_words=0)
        return answer, line[:made.waiting - 1] + (gone,) + line[made.waiting:], aside, output


ALL_QUEUEING_MISREADINGS = [
    PastTheAllowance, BackToTheFront, StepsNotDeducted, LeftBefore, DoneHasNothingLeft, CountStale, StateZeroed, StaysInTheLine, DoneStays,
    AsideToTheFront, ToppedUpToTheFront, LineAlone, AsideAlone, NewcomerAlone, First32, StepsOfTheLine, StepsSetAside, RoomFirst, EmptyFirst,
    ListsBeforeTheQuery, ListsBeforeTheFront, RoomFor31, RoomFor33, RoomAsNeeded, EachList32, QuantumOfTheTurn, EmptyLineUntested, EmptyLineOfAnyNumber,
    JoinsAnySurvey, RefusedRotates, ZeroJoinsTheLine, ArraysKept, TopUpOfNothing, BehindTheLists]

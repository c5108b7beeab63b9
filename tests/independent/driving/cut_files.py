"""What CR 5 says of a whole file, held against what the archive gives: "the file may arrive cut at any byte with the same answers". A
file is read twice, cut in two ways, through copies of one relay, and its frames are fed by hand to a third copy.

Nothing that the model says is looked at. A caller goes by the archive alone: where fewer bytes are lent than it wants, 0 is "taken" and
no answer; where it wants nothing, the caller stops."""
import sys
from itertools import groupby

from cases.event_runs import frames_by_hand, times_by_hand
from cases.records import ROOM
from driving import calls

TIME, FRAME, BEHIND = 8, 12, 54     # of the reader


def parts(made, got):
    """The answer, and the slices as the archive left them, by name."""
    found, at = {}, 8
    for name, data in calls.left(made).items():
        end = at + len(calls.guarded(data))
        found[name] = got[at + len(calls.BEFORE):end - len(calls.BEHIND)]
        at = end
    return int.from_bytes(got[:8], 'big'), found


class Told:
    """What a caller hears of one cutting: the list of answers, each with the buffer and with time and frame; the answer to the end;
    and the relay after the last record."""

    def __init__(self, some):
        self.answers, self.end, self.state, wants, rest = [], None, None, None, b''
        for made, got in some:
            answer, left = parts(made, got)
            if made.step.call == 'wanted':
                wants = answer
            elif made.step.call == 'read':
                piece = made.step.samples
                if wants == 0 or rest and piece != rest:
                    sys.exit(f'DIFFERENCE in {made.label}: a caller would not lend these bytes, {wants} are wanted: {piece.hex()}')
                if answer or len(piece) >= wants:
                    self.answers.append((answer, left['other'], left['reader'][TIME:BEHIND]))
                elif left['other'] != made.step.other:
                    sys.exit(f'DIFFERENCE in {made.label}: taken, and the buffer is written to')
                rest, self.state = piece[wants:] if answer % 256 != 12 else b'', left['state']
            elif made.step.call == 'end':
                self.end = answer
        if rest or (wants == 0) != (self.end % 256 == 12):
            sys.exit(f'DIFFERENCE in {some[0][0].label}: {wants} wanted before an end answered {self.end}, {len(rest)} bytes not taken')


def by_hand(cut, fed):
    """What the caller should hear, from the file and from what feed answered to its frames."""
    answers = []
    for (made, got), time, frame in zip(fed, times_by_hand(cut.file), frames_by_hand(cut.file, cut.wrong)):
        answer, left = parts(made, got)
        answers.append((answer, left['other'], time + frame))
    if cut.wrong < len(cut.file.records):
        # "12, sample number not one above the last", "place being the record index from 0".
        return answers + [(256 * cut.wrong + 12, ROOM, None)], 256 * cut.wrong + 12
    # "11, file ends inside a record".
    return answers, 256 * cut.wrong + 11 if cut.cut else 0


def unlike(told, wanted):
    """Where two lists of answers are not the same. Time and frame of a refusal are those of the record before; a frame of fewer ends
    leaves the bytes behind it."""
    for n, (one, two) in enumerate(zip(told, wanted)):
        if one[:2] != two[:2] or two[2] is not None and one[2][:len(two[2])] != two[2]:
            return f'answer {n}: {one} and {two}'
    return f'{len(told)} and {len(wanted)} answers' if len(told) != len(wanted) else None


class CutFiles:
    def __init__(self):
        self.files, self.answers, self.endings = 0, 0, {0: 0, 11: 0, 12: 0}

    def hold(self, cut, first, second, fed):
        """The calls of both cuttings and of feed, each with what the archive left."""
        one, two = Told(first), Told(second)
        answers, end = by_hand(cut, fed[:-1])
        fault = unlike(one.answers, two.answers) or unlike(one.answers, answers)
        if not fault and not one.end == two.end == end:
            fault = f'the end: {one.end}, {two.end} and {end}'
        relay = parts(*fed[-1])[1]['state']
        if not fault and any(told.state not in (None, relay) for told in (one, two)):
            fault = 'the relay'
        if fault:
            sys.exit(f'DIFFERENCE in {first[0][0].label}, the same file cut again, or fed by hand: {fault}')
        self.files, self.answers = self.files + 1, self.answers + len(answers)
        self.endings[end % 256] += 1

    def hold_all(self, some_files, compared):
        """Files, and the calls that were made for each in their order."""
        found = (list(group) for _, group in groupby(compared, key=lambda pair: pair[0].label))
        for cut in some_files:
            self.hold(cut, next(found), next(found), next(found))

    def blind(self):
        """What was to be seen, and was not."""
        yield from (f'files cut twice: none ended with {number}' for number, count in self.endings.items() if not count)

"""The rule of document 02, CR 1, for feed: one frame every sample time, and
the decision for the newest 16 frames.

Comments in quotes are the document's own sentences. The parts of the relay's
state are named in settings.py.
"""
from model.decision import DECISION, Decided, decide, refuse
from model.measuring import FRAMES, channels, length, line
from model.settings import COUNT, IN_FORCE, NUMBERS, STATE, WINDOW, absent


def frame_size(ends: int) -> int:
    """The bytes of a frame: "3+3N numbers"."""
    return 2 * channels(ends)


def frames_held(state: bytes) -> int:
    # "a count above 16 reads as 16"
    return min(int.from_bytes(state[COUNT], 'big'), FRAMES)


def newest(state: bytes, ends: int) -> bytes:
    """The 16 frames at the front of the 336 numbers, "with the oldest as
    n=0"."""
    return state[NUMBERS][:2 * length(ends)]


def moved_on(state: bytes, frame: bytes, ends: int) -> bytes:
    """The state when it has kept a frame: "the firmware lends its window and
    finds it moved on by one frame". What lies behind the 16 frames stays."""
    held = newest(state, ends)
    behind = state[NUMBERS][len(held):]
    count = min(frames_held(state) + 1, FRAMES)
    return (state[:WINDOW.start] + count.to_bytes(2, 'big')
            + held[len(frame):] + frame + behind)


def feed(state: bytes, frame: bytes, room: int) -> tuple[bytes, Decided]:
    """The state that it leaves, and what it gives back. "Order 1, 9, 3, 10, 4.
    The first three keep nothing." """
    if len(state) != STATE:         # 17 of document 01: "before all others,
        return state, refuse(17)    # changes nothing"
    in_force = state[IN_FORCE]
    if absent(in_force):            # "no settings in force"
        return state, refuse(1)
    ends = line(in_force).ends
    if len(frame) != frame_size(ends):
        return state, refuse(9)     # "frame of another length"
    if room < DECISION:             # "room below 32 bytes"
        return state, refuse(3)
    kept = moved_on(state, frame, ends)
    if frames_held(kept) < FRAMES:
        return kept, refuse(10)     # "fewer than 16 frames yet (the frame is
    #                                 kept)"
    # "For each accepted frame the answer, number, place and 32 bytes are those
    # that document 01's call gives for these 16 frames." So a "frame with a
    # missing sample is kept, and refusal 4 comes for as long as it is among
    # the 16".
    return kept, decide(kept, newest(kept, ends), room)

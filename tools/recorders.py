#!/usr/bin/env python3
"""recorders.py: whether a body could differ by what a recorder keeps or witnesses.

A session of `yamux` has `Off`, and one of `with_history` has `Witnessed`. What a contract says of a history is proved with
the others than `Off`. So the bodies must be the same for all. An `ensures` may speak of `KEEPS` and `WITNESSED`, since it is
proved of every body. Anything else that names them, as an invariant, a ghost field, a ghost member or a `requires`, could let
a body do another thing for one recorder, and so could an `impl` block for one.
Those that there are stand below, each with its reason. It prints any other, and ends with 'N places, M unknown'.
"""
import re
import sys
from pathlib import Path

ROOT = Path(__file__).resolve().parent.parent
NAMED = re.compile(r"\b(KEEPS|WITNESSED)\b")
FOR_ONE = re.compile(r"^\s*impl\b.*(?:<(?:ymx_\w+::)*(?:Off|Full|Witnessed<\w+>)>| for (?:Off|Full|Witnessed<\w+>) \{)")
# (file, part of the line): why it may stand there
KNOWN = {
    "the definition of a recorder": [
        ("ymx_seats/src/recorder.rt", "ghost KEEPS"),
        ("ymx_seats/src/recorder.rt", "ghost WITNESSED"),
        ("ymx_seats/src/recorder.rt", "impl Naming for Off {"),
        ("ymx_seats/src/recorder.rt", "impl Recorder for Off {"),
        ("ymx_seats/src/recorder.rt", "impl Naming for Full {"),
        ("ymx_seats/src/recorder.rt", "impl Recorder for Full {"),
        ("ymx_seats/src/recorder.rt", "Naming for Witnessed<J> {"),
        ("ymx_seats/src/recorder.rt", "Recorder for Witnessed<J> {"),
    ],
    "there is a history where it is kept or witnessed, and none elsewhere": [
        ("ymx_seats/src/log.rt", "ghost invariant = { λ s. RisesFrom 0 s.entries.items × (behind_all 0 s.entries.items ≤ vec_len s.entries) × HasIf R.WITNESSED s.journal };"),
        ("ymx_seats/src/seat.rt", "ghost invariant = { λ s. IsOf s.number s.witness × IsWitnessed R.WITNESSED R.role R.config (seen_by s.witness) };"),
        ("ymx_hub/src/booked.rt", "ghost invariant = { λ s. Kept R.KEEPS s.ended s.role s.config s.log.entries s.session × (s.unspent ≤ spare s.half_spent) × (s.unspent ≤ s.given) × IsGood s.role s.config × IsJournaled R.WITNESSED R.role R.config s.role s.config s.log.journal s.session s.given × AllReleased s.released s.log.journal };"),
        ("ymx_seats/src/log.rt", "requires history { IsWitnessed R.WITNESSED"),
        ("ymx_seats/src/seat.rt", "requires witnessed { IsWitnessed R.WITNESSED"),
        ("ymx_hub/src/recording.rt", "requires history { IsHistoryOf R.WITNESSED"),
        ("ymx_hub/src/booked.rt", "requires journal { IsUnused R.WITNESSED"),
        ("ymx_hub/src/opening.rt", "requires history { IsWitnessed R.WITNESSED"),
    ],
    "the memory for an entry is found before its event, where entries are kept": [
        ("ymx_seats/src/log.rt", "requires ready { IsReady R.KEEPS"),
        ("ymx_seats/src/log.rt", "requires room { R.KEEPS ≡ true →"),
        ("ymx_hub/src/recording.rt", "requires ready { IsReady R.KEEPS"),
        ("ymx_hub/src/recording.rt", "requires room { R.KEEPS ≡ true →"),
    ],
    "a history is begun with a journal or without one": [
        ("ymx_seats/src/log.rt", "requires { R.WITNESSED ≡ false }"),
        ("ymx_seats/src/log.rt", "requires witnessed { R.WITNESSED ≡ true }"),
        ("ymx_seats/src/seat.rt", "requires { R.WITNESSED ≡ false }"),
        ("ymx_hub/src/booked.rt", "requires unwitnessed { R.WITNESSED ≡ false }"),
        ("ymx_hub/src/booked.rt", "requires witnessed { R.WITNESSED ≡ true }"),
        ("ymx_hub/src/hub.rt", "requires unwitnessed { R.WITNESSED ≡ false }"),
        ("ymx_hub/src/hub.rt", "requires witnessed { R.WITNESSED ≡ true }"),
    ],
    "a transcript is handed out where entries are kept": [
        ("ymx_hub/src/booked.rt", "requires keeps { R.KEEPS ≡ true }"),
        ("ymx_hub/src/hub.rt", "requires { R.KEEPS ≡ true }"),
    ],
    "a stream is written by the caller of its writing half, where there is a journal that knows who that is": [
        ("ymx_hub/src/recording.rt", "requires may { R.WITNESSED ≡ true → MayDo"),
        ("ymx_hub/src/halves.rt", "requires { R.WITNESSED ≡ true → HaveHalves"),
        ("ymx_hub/src/halves.rt", "requires { R.WITNESSED ≡ true → MayWrite"),
        ("ymx_hub/src/halves.rt", "ghost invariant = { λ half. R.WITNESSED ≡ true → MayWrite half.seat.right half.id };"),
        ("ymx_hub/src/hub.rt", "requires may { R.WITNESSED ≡ true → MayWrite"),
        ("ymx_hub/src/shared.rt", "requires may { R.WITNESSED ≡ true → MayWrite"),
        ("ymx_hub/src/stream_calls.rt", "requires may { R.WITNESSED ≡ true → MayWrite"),
        ("ymx_hub/src/waiting_calls.rt", "requires may { R.WITNESSED ≡ true → MayWrite"),
    ],
    "and read by the caller of its reading half, until that releases it": [
        ("ymx_hub/src/halves.rt", "requires { R.WITNESSED ≡ true → MayRead"),
        ("ymx_hub/src/halves.rt", "ghost invariant = { λ half. R.WITNESSED ≡ true → MayRead half.seat.right half.id };"),
        ("ymx_hub/src/releasing.rt", "requires may { R.WITNESSED ≡ true → MayRead"),
        ("ymx_hub/src/shared.rt", "requires may { R.WITNESSED ≡ true → MayRead"),
        ("ymx_hub/src/stream_calls.rt", "requires may { R.WITNESSED ≡ true → MayRead"),
        ("ymx_hub/src/waiting_calls.rt", "requires may { R.WITNESSED ≡ true → MayRead"),
    ],
    "what a half tells of its bytes and its end, where entries are kept: the body is one for all recorders": [
        ("ymx_tunnel/src/halves.rt", text)
        for text in (
            "ghost taken = { λ half. carried bytes_written (own_entries R.KEEPS half.seat) };",
            "ghost taken_in_all = { λ seat. carried bytes_written (own_entries R.KEEPS seat) };",
            "ghost given = { λ half. carried read_bytes (own_entries R.KEEPS half.seat) };",
            "ghost given_in_all = { λ seat. carried read_bytes (own_entries R.KEEPS seat) };",
            "ghost HasEnded = { λ half. SaidEnd (own_entries R.KEEPS half.seat) };",
            "ghost EndedBefore = { λ seat. SaidEnd (own_entries R.KEEPS seat) };",
            "ghost HasRefused = { λ half fault. ToldRefusal fault (own_entries R.KEEPS half.seat) };",
            "ghost RefusedBefore = { λ seat fault. ToldRefusal fault (own_entries R.KEEPS seat) };",
            "ghost Finishes = { λ half seat answer. Books R.KEEPS half.seat seat",
            "ghost Resets = { λ half seat answer. Books R.KEEPS half.seat seat",
        )
    ],
    "what a thread of a pump promises, as an `ensures` would": [
        ("yamux/src/pumps.rt", "ghost kept_by = { λ promise pumped. R.KEEPS ≡ false → HasRead"),
        ("yamux/src/pumps.rt", "ghost kept_by = { λ promise pumped. R.KEEPS ≡ false → R.WITNESSED ≡ true → HasWritten"),
    ],
}


def places():
    """Each line of a source that could part the recorders: its file, its number, and itself."""
    for path in sorted((ROOT / "crates").glob("*/src/**/*.rt")):
        for number, line in enumerate(path.read_text(encoding="utf-8").splitlines(), 1):
            code = line.split("//")[0].strip()
            if (NAMED.search(code) and not code.startswith("ensures")) or FOR_ONE.match(code):
                yield str(path.relative_to(ROOT / "crates")), number, code


def main():
    known = {it: False for these in KNOWN.values() for it in these}
    found = unknown = 0
    for file, number, code in places():
        found += 1
        fit = [it for it in known if it[0] == file and it[1] in code]
        known.update({it: True for it in fit})
        if not fit:
            unknown += 1
            print(f"crates/{file}:{number}: a body could differ by the recorder: {code}")
    for file, text in (it for it, is_used in known.items() if not is_used):
        unknown += 1
        print(f"tools/recorders.py: crates/{file} has no such place any more: {text}")
    print(f"{found} places, {unknown} unknown")
    return 1 if unknown else 0


if __name__ == "__main__":
    sys.exit(main())

"""What the prover says of mutants, of several functions at once, and what a test or a case says of a mutant."""
import contextlib
import functools
import glob
import os
import re
import signal
import tempfile

from edits import Unfit, files_with_tests, made, places
from copies import Outcome, Result, applied, changed, end_of, tell
from switches import is_of_bodies, program_with, texts_with_switches
from common import COUNTS, ran, read, write

VERDICT = re.compile(r"^fn (\S+): (.*)$", re.MULTILINE)
PROOF_ERROR = re.compile(r"^\./proofs/(\S+)/(?:Answers|Proof)\.antt:\d+:\d+: error: ", re.MULTILINE)
CALLS = re.compile(r"(?:no proof: |not proved; )(?:it calls|it passes the block|the borrow checker's part in its proof is not made yet: a call of) ")
PROVED = ("proved", "no holes", "depends on a hole in ")
BY_HAND = "not proved; the borrow checker does not cover"
JUDGED = re.compile(r"^(?:only=|logic=not-proved)", re.MULTILINE)
ENDED = re.compile(r"^checked (\S+), \d+ of \d+$", re.MULTILINE)
ERROR_AT = re.compile(r"^(?:\./)?(src/\S+\.rt):(\d+):\d+: error", re.MULTILINE)
REPLAY = "tool_replay"
# A program without proof is slow: a run of a case may take longer than its minute.
CASE_SECONDS = "300"
# So long a test may take, beside other proofs too, and one that is said to wait for ever.
TEST_SECONDS, ENDLESS_SECONDS = 600, 40
# What rt says of a test; and below a failed one, after what that wrote, why.
RAN = re.compile(r"^test (\S+) \.\.\. (ok|FAILED)$", re.MULTILINE)
WHY = re.compile(r"^\s*checked: (.*)$", re.MULTILINE)
# How many mutants are built at once, and what the name of a test that runs without one ends in.
MOST_AT_ONCE, AS_IT_IS = 36, "_as_it_is"
# What says nothing of a mutant, though rt and cases/run call it failed: it took too long, or memory was short and the system killed it.
LATE, KILLED = "had not ended in time", "was killed"
SAID_OF_KILLED = "signal 9 (SIGKILL)"


class Unjudged(Unfit):
    """A round that rt judged nothing of, and which of its mutants may be at fault, if that is known."""

    def __init__(self, why, edits, suspects, said):
        super().__init__(f"{why}: {', '.join(edit.name for edit in edits)}\n{end_of(said)}")
        self.suspects = suspects


def next_round(edits, most):
    """The mutants that can be tried together, one for each function and at most this number, or one that names none; and the others."""
    if not edits[0].function:
        return edits[:1], edits[1:]
    chosen = {}
    for edit in edits:
        if edit.function and len(chosen) < most:
            chosen.setdefault(edit.function, edit)
    now = list(chosen.values())
    return now, [edit for edit in edits if edit not in now]


def check(folder, functions=(), seconds=None):
    """How `rt check` ends of the crate, or of these functions alone past holes, what it says of each function, and all it says. The status is None if it is not done in time."""
    jobs = os.environ.get("RT_JOBS")
    words = ["rt", "check", *(["--jobs", jobs] if jobs else []), *(["--allow-holes"] if functions else [])]
    words += [word for function in functions for word in ("--only", function)]
    status, said = ran(words, seconds, cwd=folder)
    return status, dict(VERDICT.findall(said)), said


def outcome(edit, verdicts, said):
    """What came of a mutant that names a function, by what rt said of that; None if rt did not judge it."""
    verdict = verdicts.get(edit.function, "")
    if verdict.startswith(PROVED):
        return Outcome.LET_THROUGH
    if not verdict.startswith(("no proof: ", "not proved")):
        return None
    in_its_proof = any(f"{edit.crate}::{path.replace('/', '::')}" == edit.function for path in PROOF_ERROR.findall(said))
    if verdict.startswith(BY_HAND) or in_its_proof:
        return Outcome.BY_A_GOAL if edit.examples else Outcome.BY_LITTLE
    return Outcome.WAITS if CALLS.match(verdict) else Outcome.BY_A_GOAL


def lines_of(edit, folder):
    """The lines that the mutant changes, as pairs of a file and a number."""
    text = read(f"{folder}/{edit.file}")
    return {(edit.file, text.count("\n", 0, start) + 1) for start, _, _ in places(edit, text)}


def try_round(edits, folder, seconds):
    """Of each mutant of the round what came of it."""
    functions = [edit.function for edit in edits if edit.function]
    with applied(edits, folder, functions):
        status, verdicts, said = check(folder, functions, seconds)
    if status is None:
        ended = ENDED.findall(said)
        raise Unjudged("rt was not done in time with this round", edits, [edit for edit in edits if edit.function not in ended], said)
    if status not in (0, 1) or (status == 1 and not JUDGED.search(said)):
        wrong = {(file, int(line)) for file, line in ERROR_AT.findall(said)}
        raise Unjudged("rt judged nothing of this round", edits, [edit for edit in edits if lines_of(edit, folder) & wrong], said)
    if not edits[0].function:
        return [Result(edits[0], Outcome.LET_THROUGH if status == 0 else Outcome.BY_A_GOAL, "the crate")]
    results = [Result(edit, outcome(edit, verdicts, said), verdicts.get(edit.function, "")) for edit in edits]
    unjudged = [result.edit for result in results if not result.outcome]
    if unjudged:
        raise Unjudged("rt did not judge each function of this round", edits, unjudged, said)
    return results


def parts_of(edits, suspects):
    """The parts of a round that are tried again, so that one mutant stops no other: the suspects each alone, or halves."""
    if suspects:
        others = [edit for edit in edits if edit not in suspects]
        return [part for part in [others] + [[edit] for edit in suspects] if part]
    half = len(edits) // 2
    return [edits[:half], edits[half:]]


def try_parts(edits, folder, seconds):
    """Tells what came of each mutant of the round. If rt doesn't judge it, it is tried in parts."""
    try:
        return tell(try_round(edits, folder, seconds))
    except Unfit as fault:
        if len(edits) == 1:
            print(fault, flush=True)
            return tell([Result(edits[0], Outcome.NOT_TRIED)])
        parts = parts_of(edits, getattr(fault, "suspects", []))
    return [result for part in parts for result in try_parts(part, folder, seconds)]


def test_as_it_is(crate, edits, folder, proved):
    """Refuses functions of these mutants, or a crate if one names no function, that are not proved as they are. Adds the others to those that are."""
    functions = {edit.function for edit in edits} - proved
    if not functions or "" in proved:
        return
    print(f"{crate}: proving it as it is, before {len(edits)} mutants", flush=True)
    named = sorted(functions - {""})
    whole = "" in functions
    with applied([], folder, () if whole else named):
        status, verdicts, said = check(folder, () if whole else named)
    absent = [function for function in named if not verdicts.get(function, "").startswith(PROVED)]
    if whole and status != 0 or absent:
        raise Unfit(f"{crate} is not proved as it is, or has no function {', '.join(absent)}:\n{end_of(said)}")
    proved |= functions


def try_proofs(crate, edits, folder, rule, is_proved=False, keep=lambda results: None):
    """What the prover says of each of these mutants, which goes to `keep` after each round. Unless the crate is proved, their functions are first proved as they are."""
    waiting = sorted(edits, key=lambda edit: not edit.function)
    results, proved = [], set()
    while waiting:
        now, later = next_round(waiting, rule.round)
        if not is_proved:
            test_as_it_is(crate, now, folder, proved)
        came = try_parts(now, folder, rule.minutes * 60)
        waits = [result.edit for result in came if result.outcome is Outcome.WAITS]
        if len(waits) == len(now):
            waits, came = [], tell([Result(edit, Outcome.NOT_TRIED) for edit in now])
        came = [result for result in came if result.outcome is not Outcome.WAITS]
        keep(came)
        results += came
        waiting = later + waits
        print(f"{crate}: {len(results)} tried, {len(waiting)} left", flush=True)
    return results


def alone(copy, crate, names, more=""):
    """The test crate with the tests of these names as its only ones, so that no other is run, and each once more if there are letters for its name then;
    and afterwards as it was."""
    functions = "|".join(re.escape(name.rsplit("::", 1)[-1]) for name in names)
    others = re.compile(rf"^(?:///? .*\n)*#\[test\]\n(?:#.*\n)*fn (?!(?:{functions})\b)(?:.*\n)*?}}\n", re.MULTILINE)
    own = re.compile(r"^(#\[test\]\n(?:#.*\n)*fn \w+)((?:.*\n)*?}\n)", re.MULTILINE)
    texts = {}
    for file in files_with_tests(copy, crate):
        text = read(file)
        left = others.sub("", text)
        texts[file] = (text, own.sub(rf"\g<0>\n\g<1>{more}\g<2>", left) if more else left)
    return changed(texts, copy)


def test_results(copy, crate, seconds=TEST_SECONDS):
    """How each test of the crate ends, or of a program's modules, within these seconds. Nothing is proved for it."""
    folder = os.path.join(copy, "crates", crate)
    words = [f"{copy}/.ci/try", "--test", "--seconds", str(seconds)]
    if os.path.isdir(f"{copy}/cases/{crate}/modules"):
        words = [f"{copy}/.ci/tests", "--each", crate]
    _, said = ran(words, cwd=folder)
    results = results_in(said)
    if not results:
        raise Unfit(f"no test of {crate} ran:\n{end_of(said)}")
    return results


def results_in(said):
    """How each test ended, by all that rt says."""
    _, *parts = RAN.split(said)
    return {name: result if result == "ok" else failure(more) for name, result, more in zip(*[iter(parts)] * 3)}


def failure(more):
    """How a test failed, by what stands below it."""
    reasons = WHY.findall(more)
    if any(SAID_OF_KILLED in why for why in reasons):
        return KILLED
    return LATE if any(why.startswith("no-answer") for why in reasons) else "FAILED"


def try_tests(edit, copy, as_it_is):
    """Whether each test that the mutant names passes without it, by what `as_it_is` says of a crate's tests, if it does, and fails with it."""
    folder = os.path.join(copy, "crates", edit.crate)
    for crate in dict.fromkeys(crate for crate, _ in edit.tests):
        with applied([edit], folder), alone(copy, crate, [name for other, name in edit.tests if other == crate]):
            with_edit = test_results(copy, crate, TEST_SECONDS if edit.ends else ENDLESS_SECONDS)
        if outcome_of_tests(edit, crate, as_it_is and as_it_is(crate), with_edit) is Outcome.LET_THROUGH:
            return Outcome.LET_THROUGH
    return Outcome.BY_A_TEST


def together(edits, copy):
    """The mutants of bodies that tests or cases refuse, in parts that one build has: those of one crate, with other tests of one other, or cases of one
    program."""
    parts = []
    for edit in edits:
        needs = {needs_proof(copy, program, [case]) for program, case in edit.cases}
        kind = (edit.crate, edit.ends, bool(edit.tests), True in needs, {crate for crate, _ in edit.tests or edit.cases})
        if len(kind[-1]) > 1 or not is_of_bodies(edit, copy):
            continue
        for part in parts:
            if part[0] == kind and len(part) <= MOST_AT_ONCE and not any(test in other.tests for other in part[1:] for test in edit.tests):
                part.append(edit)
                break
        else:
            parts.append([kind, edit])
    return [part[1:] for part in parts]


def try_together(edits, copy):
    """Tells what came of each of these mutants in one build, where that says so: each of its tests or cases fails with it, and passes without one. If
    there is no build of all, halves of them are tried."""
    results = []
    with tempfile.TemporaryDirectory() as room:
        try:
            came = (tests_together if edits[0].tests else cases_together)(edits, copy, room)
        except Unfit as fault:
            print(fault, flush=True)
            parts = parts_of(edits, []) if len(edits) > 1 else []
            return [result for part in parts for result in try_together(part, copy)]
        for edit in edits:
            with contextlib.suppress(Unfit):
                results += tell_run(edit, came(edit))
    return results


def tests_together(edits, copy, _):
    """What says what came of each of these mutants, by their tests in one build: a test runs in a process of its own, and once more by another name."""
    crate, names = edits[0].tests[0][0], [name for edit in edits for _, name in edit.tests]
    with changed(texts_with_switches(edits, copy), copy), alone(copy, crate, names, AS_IT_IS):
        ended = test_results(copy, crate, TEST_SECONDS if edits[0].ends else ENDLESS_SECONDS)
    return lambda edit: outcome_of_tests(edit, crate, {name: ended.get(name + AS_IT_IS) for name in names}, ended)


def cases_together(edits, copy, room):
    """What says what came of each of these mutants, by their cases over one build of the program, which has another name in the room for each."""
    program = edits[0].cases[0][0]
    with changed(texts_with_switches(edits, copy, room), copy):
        file = program_of(copy, program, [case for _, case in edits[0].cases], room)
    for edit in edits:
        os.link(file, program_with(edit, room))
    return lambda edit: outcome_of_cases(edit, copy, program, file, program_with(edit, room))


def outcome_of_tests(edit, crate, as_it_is, with_edit):
    """Whether each test that the mutant names of the crate passes without it, unless that is None, and fails with it."""
    for name in [name for other, name in edit.tests if other == crate]:
        if as_it_is is not None and as_it_is.get(name) != "ok" or name not in with_edit:
            raise Unfit(f"{edit.crate}/{edit.name}: the test {name} of {crate} does not pass as it is, or did not run with the mutant")
        if with_edit[name] == "ok":
            return Outcome.LET_THROUGH
        refuse_late(edit, name, with_edit[name])
    return Outcome.BY_A_TEST


def refuse_late(edit, name, result):
    """Counts as not tried what was killed, or ran out of time, as on a machine with more to do, unless the mutant waits for ever."""
    if result == KILLED:
        raise Unfit(f"{edit.crate}/{edit.name}: {name} {KILLED}")
    if result == LATE and edit.ends:
        raise Unfit(f"{edit.crate}/{edit.name}: {name} {LATE}, and no line of it says `ends: never`")


def needs_proof(copy, program, cases):
    """Whether one of these cases of the program needs a proved one."""
    text = "".join(read(path) for path in glob.glob(f"{glob.escape(copy)}/cases/{program}/*.txt"))
    return any(f"case {case}\nproved " in text for case in cases)


def program_of(copy, program, cases, room):
    """The program as it stands in the copy, in a file of this folder: built without proof, and without checks if one of these cases needs a proved one."""
    file = os.path.join(room, f"{program}-{len(os.listdir(room))}")
    options = ["--unchecked"] * needs_proof(copy, program, cases)
    status, said = ran([f"{copy}/cases/unproved", *options, f"{copy}/crates/{program}", file])
    if status:
        raise Unfit(f"{program} was not built:\n{end_of(said)}")
    return file


def replays(copy, file, name):
    """How it ends whether the replies of tool_replay, in this file, to the script of this name are those that were worked by hand."""
    lines, replies = made.worked(read(f"{copy}/cases/{REPLAY}/scripts.txt"), name)
    status, said = ran([file], float(CASE_SECONDS), "\n".join([*lines, ""]))
    return {None: LATE, -signal.SIGKILL: KILLED}.get(status, "ok" if (status, said.splitlines()) == (0, replies) else "FAILED")


def result_of(copy, program, file, case):
    """How the case ends with the program in this file."""
    if program == REPLAY:
        return replays(copy, file, case)
    words = [f"{copy}/cases/run", "--program", f"{program}={file}", f"{program}/{case}"]
    status, said = ran(words, env={**os.environ, "CASE_SECONDS": CASE_SECONDS})
    if not COUNTS.search(said):
        raise Unfit(f"the cases {case} of {program} did not run:\n{end_of(said)}")
    return "ok" if status == 0 else LATE if LATE in said else KILLED if "status -9" in said else "FAILED"


def try_cases(edit, copy, built, room):
    """Whether each case that the mutant names passes without it, unless `built` is None, and fails with it."""
    for program in sorted({program for program, _ in edit.cases}):
        cases = [case for other, case in edit.cases if other == program]
        kind = program, needs_proof(copy, program, cases)
        if built is not None and kind not in built:
            built[kind] = program_of(copy, program, cases, room)
        with applied([edit], os.path.join(copy, "crates", edit.crate)):
            with_edit = program_of(copy, program, cases, room)
        if outcome_of_cases(edit, copy, program, built and built[kind], with_edit) is Outcome.LET_THROUGH:
            return Outcome.LET_THROUGH
    return Outcome.BY_A_TEST


def outcome_of_cases(edit, copy, program, as_it_is, with_edit):
    """Whether each case that the mutant names of the program passes with the file that is without it, unless that is None, and fails with the other."""
    for case in [case for other, case in edit.cases if other == program]:
        if as_it_is is not None and result_of(copy, program, as_it_is, case) != "ok":
            raise Unfit(f"{edit.crate}/{edit.name}: the case {case} of {program} does not pass as it is")
        result = result_of(copy, program, with_edit, case)
        if result == "ok":
            return Outcome.LET_THROUGH
        refuse_late(edit, case, result)
    return Outcome.BY_A_TEST


def tell_run(edit, result):
    """Tells what its tests or its cases say of a mutant."""
    named = [f"test {name} of {crate}" for crate, name in edit.tests] or [f"case {name} of {program}" for program, name in edit.cases]
    return tell([Result(edit, result, ", ".join(named))])


def try_runs(edits, copy, as_it_is=True, keep=lambda results: None):
    """What its test or its case says of each of these mutants, which goes to `keep`. If `as_it_is` says so, those that one build does not judge are
    first tried without it."""
    results = []
    for part in together(edits, copy):
        came = try_together(part, copy)
        keep(came)
        results += came
    left = [edit for edit in edits if edit not in [result.edit for result in results]]
    built = {} if as_it_is else None

    @functools.cache
    def tests_as_they_are(crate):
        with alone(copy, crate, [name for edit in left for other, name in edit.tests if other == crate]):
            return test_results(copy, crate)

    with tempfile.TemporaryDirectory() as room:
        for edit in left:
            try:
                result = try_tests(edit, copy, as_it_is and tests_as_they_are) if edit.tests else try_cases(edit, copy, built, room)
            except Unfit as fault:
                print(fault, flush=True)
                result = Outcome.NOT_TRIED
            results += tell_run(edit, result)
            keep(results[-1:])
    return results

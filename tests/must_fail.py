#!/usr/bin/env python3
"""must_fail.py [--all] [--read] [--warm] [--beside] [--minutes N] [--jobs N] [--part I/N] [NAME..]: whether the prover refuses each edit.

Tries the edits tests/edits/NAME/*.edit, of all crates or of those named, side by side. The prover must refuse each. The
form of an edit, the verdict and its words are the toolchain's, by the code of `rt must-fail`. Beyond that, each edit
begins with a line 'refused by: FUNCTION' or 'refused by: FUNCTION, clause NAME', and the prover must refuse that function
itself, and that clause. The last line is 'N passed, M failed'.

An edit is tried where it is due: where nothing that its last refusal stood on is told by the record tests/edits/tried,
or something of that has changed (tests/record.py says what counts). Of the others one in twelve is drawn by the hash of the
commit and tried too, so that a line of the record that says what is not so is found: it fails. A line of the record that can't
be read, or that names an edit which is not there, has all edits of its crate tried; where it tells no crate, or no commit's hash
can be had, all edits of all crates are. What was refused is written into the record, with nothing else: commit it with the
change that made it due.

The prover takes each function by itself, by the contracts of what it calls. So it is asked for the functions that edits
name alone, from nothing, over the crates below as `rt ci` proved and built them on this machine of the very same files; where
`rt ci` has not proved a crate, it is proved here first. Edits within the bodies of different functions are tried in one
check, where each function must be refused for its own edit and no other function at all. An edit that such a check leaves in
doubt is tried alone, and one that is in doubt then, by a check of the whole crate.

--all: every edit, whatever the record says, and the edits crates/NAME/must-fail/*.edit too, which `rt ci` tries.
--read: only sees that each edit can be applied and says what refuses it, those of crates/NAME/must-fail too.
--warm: begins with what the crates' own checks left in out/, and leaves the record as it is. For use while you write.
--beside: beside a run of `rt ci`, of which the input names each crate that it has proved, a line each, and which ends where the input ends. It takes what that run leaves of the processors, and tries the edits of a crate
once that run has proved it; what is left when it has ended is tried as without this word.
--minutes N: no edit is begun N minutes after the start. What is left stays due, as the record has it, and how many those are is told: a new
toolchain, or a change below all crates, makes more due than one run has time for.
--jobs N: at most N checks at a time; else as many as there are processors and memory, as under `rt ci`.
--part I/N: each Nth edit, from the Ith on, for N machines that share the work.
"""

import argparse
import copy
import math
import os
import re
import shutil
import sys
import tempfile
import threading
import time
from concurrent.futures import ThreadPoolExecutor

import record
from toolchain import ONE_JOB, clone, copied, crates_in, kept_of, load_rt, refused_by_function, refused_in, verdict_on

TOP = os.path.dirname(os.path.dirname(os.path.realpath(__file__)))
# What the check of edits takes: bytes of memory, and seconds for a proof of the whole crate over kept work.
MEMORY, SECONDS = 2_000_000_000, 12
# The most edits that are tried in one check. Of 24 edits of asgi_types each took 6.1 processor seconds, of 12 each 7.5, and one alone 23.
AT_ONCE = 24
# How many checks of edits go beside those of `rt ci`, and the free memory that one is to find, of which it leaves half to a proof.
BESIDE, FREE = 3, 3 * MEMORY


def part_of(text):
    at, _, of = text.partition("/")
    if not (at.isdigit() and of.isdigit() and 1 <= int(at) <= int(of)):
        raise argparse.ArgumentTypeError("--part takes I/N, as 1/3")
    return int(at) - 1, int(of)


def read_words(words):
    parser = argparse.ArgumentParser(usage=__doc__)
    for flag in ("--all", "--read", "--warm", "--beside"):
        parser.add_argument(flag, action="store_true")
    parser.add_argument("--minutes", type=float, default=math.inf)
    parser.add_argument("--jobs", default="")
    parser.add_argument("--part", type=part_of, default=(0, 1))
    parser.add_argument("names", nargs="*")
    return parser.parse_args(words)


def label_of(crate, edit):
    return f"must-fail {crate.name}/{os.path.basename(edit)}"


def promised(edit):
    """Returns the function and the clause (None where none is named) of an edit's line 'refused by:', or None."""
    with open(edit, encoding="utf-8", errors="replace") as it:
        found = re.match(r"refused by: ([\w:+]+)(?:, clause (\w+))?\n", it.read())
    return (found[1], found[2]) if found else None


def kept_promise(edit, log):
    """Returns what is wrong with the line 'refused by:' of an edit, by the log of its check, or None."""
    function, clause = promised(edit)
    functions, clauses = refused_in(log)
    if not any(f"::{it}".endswith(f"::{function}") for it in functions):
        return f"{function} is not what the prover refused: {', '.join(sorted(functions)) or 'no function'}"
    if clause and clause not in clauses:
        return f"the prover did not name the clause {clause}: {', '.join(sorted(clauses)) or 'none'}"
    return None


def refused_of(edits, log):
    """Returns those of some edits whose functions the prover refused, each with the clause that its edit names; none where it refused any other function, too."""
    refused, found = refused_by_function(log), []
    for edit in edits:
        function, clause = promised(edit)
        own = [it for it in refused if f"::{it}".endswith(f"::{function}")]
        if len(own) == 1 and (not clause or clause in refused[own[0]]):
            found.append(edit)
        for it in own:
            del refused[it]
    return [] if refused else found


def body_at(text, at):
    """Returns the name of the function within which this place of a source stands, or None."""
    found = None
    for it in re.finditer(r"^( *)(?:pub(?:\([^)]*\))? )?(?:const )?fn (\w+)", text[:at], re.M):
        end = re.compile(rf"^{it[1]}}}", re.M).search(text, it.end())
        found = it[2] if end and at < end.start() else found
    return found


def changes_of(edit, folder):
    """Returns the changes of an edit, each with its file, its place, the old and the new text, where all stand within the body of the function that the edit
    says is refused; else None."""
    with open(edit, encoding="utf-8", errors="replace") as it:
        found = re.fullmatch(r"refused by: ([\w:+]+)(?:, clause \w+)?\nfile: (src/\S+)\n((?:old: .*\nnew:.*\n+)+)", it.read())
    if not found:
        return None
    function, file, pairs = found.groups()
    with open(f"{folder}/{file}", encoding="utf-8") as it:
        text = it.read()
    changes = [(file, text.find(old), old, new) for old, new in re.findall(r"old: (.*)\nnew: ?(.*)\n", pairs)]
    spans = sorted((at, at + len(old)) for _, at, old, _ in changes)
    are_apart = all(one[1] <= other[0] for one, other in zip(spans, spans[1:]))
    are_inside = all(text.count(old) == 1 and body_at(text, at) == function.split("::")[-1] for _, at, old, _ in changes)
    return changes if are_apart and are_inside else None


def asked_for(edit, folder):
    """Returns the name by which the prover is asked for the function of an edit: that of a method as it is, and any other one after its module, where the
    edit's file tells that. (A method stands in the module of its type, wherever its `impl` stands.)"""
    function, changes = promised(edit)[0], changes_of(edit, folder)
    if not changes or re.search(r"[A-Z]", function):
        return function
    module = changes[0][0].removeprefix("src/").removesuffix(".rt").split("/")
    module = [] if module in (["lib"], ["main"]) else [it for it in module if it != "mod"]
    first = function.split("::")[0]
    return "::".join([*(module[: module.index(first)] if first in module else module), function])


def groups_of(edits, folder):
    """Returns the edits in as few groups as can be: those of a group change bodies of different functions, and one that can't be told so stands alone."""
    alone, by_function = [], {}
    for edit in edits:
        if not changes_of(edit, folder):
            alone.append([edit])
            continue
        # One method may be named with its module, and without.
        by_function.setdefault(re.sub(r"^[^A-Z]*(?=[A-Z])", "", asked_for(edit, folder)), []).append(edit)
    number = sum(map(len, by_function.values()))
    groups = [[] for _ in range(max([-(-number // AT_ONCE), *map(len, by_function.values())]))]
    for own in sorted(by_function.values(), key=len, reverse=True):
        for group, edit in zip(sorted(groups, key=len), own):
            group.append(edit)
    return [it for it in groups if it] + alone


def texts_of(edits, folder):
    """Returns the texts of the files that these edits change, by their path in the crate."""
    texts, changes = {}, [change for it in edits for change in changes_of(it, folder)]
    for file, at, old, new in sorted(changes, key=lambda it: (it[0], -it[1])):
        if file not in texts:
            with open(f"{folder}/{file}", encoding="utf-8") as it:
                texts[file] = it.read()
        texts[file] = texts[file][:at] + new + texts[file][at + len(old) :]
    return texts


class Edits:
    """The edits of a repository that are asked for, by crate."""

    def __init__(self, rt, root, asked, crates):
        self.rt, self.wanted, self.failed = rt, {}, []
        known = {it.name for it in crates}
        self.failed += [f"crates.txt names no crate {it}" for it in asked.names if it not in known]
        folder = f"{root}/tests/edits"
        for name in sorted(os.listdir(folder)) if os.path.isdir(folder) else []:
            if name not in known and os.path.isdir(f"{folder}/{name}"):
                self.failed.append(f"tests/edits/{name}: crates.txt names no such crate")
        for crate in crates:
            if asked.names and crate.name not in asked.names:
                continue
            good, bad = rt.edits_of(crate)
            self.failed += [f"{crate.name}/{os.path.basename(it)}: BAD EDIT: its name is no edit's" for it in bad]
            twice = {os.path.basename(it) for it in good if good.count(it) > 1}
            self.failed += [f"{crate.name}/{it}: BAD EDIT: it stands twice" for it in twice]
            self.wanted[crate] = good

    def read(self):
        """Sees that each edit can be applied and says what refuses it. Returns how many do."""
        passed = 0
        for crate, edits in self.wanted.items():
            for edit in edits:
                why = self.rt.read_edit(edit, crate.folder)[1]
                if not why and not promised(edit):
                    why = "its first line is no 'refused by: FUNCTION' or 'refused by: FUNCTION, clause NAME'"
                if why:
                    self.failed.append(f"{crate.name}/{os.path.basename(edit)}: BAD EDIT: {why}")
                passed += not why
        return passed


class Choice:
    """Which edits are tried, by the record and the commit, and what is written into the record."""

    def __init__(self, root, wanted, sums, asked, commit):
        self.root, self.asked, self.alone = root, asked, threading.Lock()
        self.sums = {crate: sums.of_edits(crate, edits) for crate, edits in wanted.items()}
        self.record, self.gone = record.Record(root), {}
        for name in [it for it in self.record.sums if not os.path.isfile(f"{root}/tests/edits/{it}")]:
            self.gone.setdefault(name.partition("/")[0], os.path.basename(name))
            del self.record.sums[name]
        if not commit and not asked.all:
            print("no hash of a commit can be had here, so all edits are tried", flush=True)
        standing = {f"{crate.name}/{it}": crate for crate in wanted if commit and not asked.all for it in self.standing_of(crate)}
        self.drawn, self.standing = record.drawn(standing, commit), set(standing)
        self.tried, at = {}, 0
        for crate, edits in wanted.items():
            names = {it: f"{crate.name}/{os.path.basename(it)}" for it in edits}
            chosen = [it for it in edits if names[it] not in self.standing or names[it] in self.drawn]
            self.tried[crate] = [it for number, it in enumerate(chosen, at) if number % asked.part[1] == asked.part[0]]
            at += len(chosen)

    def standing_of(self, crate):
        """Returns the edits of a crate that stand by its record, all of which is told of edits that are there."""
        fault = self.record.fault_of(crate.name)
        if not fault and crate.name in self.gone:
            fault = f"it names {self.gone[crate.name]}, which is not there"
        if fault:
            print(f"{record.PATH}: {fault}, so all edits of {crate.name} are tried", flush=True)
            return []
        return [it for it, now in self.sums[crate].items() if now in self.record.sums.get(f"{crate.name}/{it}", [])]

    def note(self, crate, edits, refused):
        """Writes into the record what the tries of these edits came to. Returns which of them contradict it."""
        names = [f"{crate.name}/{os.path.basename(it)}" for it in edits]
        with self.alone:
            for name, is_refused in zip(names, refused):
                if is_refused and os.path.isfile(f"{self.root}/tests/edits/{name}"):
                    self.record.note(name, self.sums[crate][os.path.basename(name)])
                elif not is_refused:
                    self.record.sums.pop(name, None)
            if not self.asked.warm:
                self.record.write()
        return [not is_refused and name in self.drawn for name, is_refused in zip(names, refused)]

    def told(self):
        """Returns how many edits are tried, and how many stand by the record of which commit."""
        tried, drawn = sum(map(len, self.tried.values())), len(self.drawn)
        if self.asked.part[1] > 1:
            return f"edits: {tried} tried, as part {self.asked.part[0] + 1} of {self.asked.part[1]}"
        rest = f"{len(self.standing) - drawn} stand by the record" if self.standing else "none stands by the record"
        at = record.last_tried(self.root) if self.standing else None
        return f"edits: {tried} tried ({tried - drawn} due, {drawn} drawn), {rest}{f', whose last change is in {at}' if at else ''}"


class Trial:
    """Tries edits of crates that are proved."""

    def __init__(self, rt, room, crates, choice):
        self.rt, self.room, self.crates, self.choice, self.is_warm = rt, room, crates, choice, choice.asked.warm
        # As under `rt ci`, crates stand over the statements of those below them.
        rt.Crate.cuts_libraries = not self.is_warm
        self.kept = kept_of(rt, crates, choice.root)
        # What the prover said last in this thread: rt's verdict has only its first line.
        self.said = threading.local()
        # What was tried before the lanes begin.
        self.given = {}
        # Until when edits are begun, and how many are left then.
        self.until, self.left = time.time() + 60 * choice.asked.minutes, 0
        checked = rt.checked

        def listened(*given):
            ran = checked(*given)
            self.said.log = ran.stdout
            return ran

        rt.checked = listened

    def prove(self, crate, given, jobs):
        """Takes a crate as `rt ci` proved it of the same files, or proves it here. Returns whether it is proved."""
        if not all(given[it.name, "proof"] for it in crate.below()):
            return False
        os.makedirs(f"{crate.folder}/out", exist_ok=True)
        crate, flags = copy.copy(crate), ["--jobs", str(jobs)]
        with open(f"{self.room}/{crate.name}.log", "w+", errors="replace") as crate.out:
            if self.is_warm:
                status = 0 if crate.is_program else crate.build_rlib(flags, anew=False)
            elif self.kept.give(crate, False, self.kept.key(crate)):
                self.kept.is_built(crate)
                return True
            elif crate.is_program:
                ran = self.rt.checked(crate, {}, flags, None)
                status = ran.returncode
                crate.out.write(ran.stdout)
            else:
                status = crate.build_rlib(flags, anew=True)
                self.kept.is_built(crate)
            crate.out.seek(0)
            said = crate.out.read()
        print(f"{crate.name}: NOT PROVED, so none of its edits is tried\n{said}" if status else f"{crate.name}: proved as it stands", flush=True)
        return not status

    def refused(self, crate, edits, texts):
        """Returns those of some edits that a check of their functions alone, with these texts, refuses for their own sake."""
        over, flags = None, [*ONE_JOB]
        for edit in edits:
            flags += ["--only", asked_for(edit, crate.folder)]
        if self.is_warm and os.path.isdir(f"{crate.folder}/out/incremental"):
            over = tempfile.mkdtemp(dir=self.room)
            clone(f"{crate.folder}/out/incremental", f"{over}/kept")
        ran = self.rt.checked(crate, texts, flags, over and f"{over}/kept")
        shutil.rmtree(over or "", ignore_errors=True)
        lines = ran.stdout.rstrip("\n").split("\n")
        # The last line counts the functions that these call, too.
        is_judged = ran.returncode == 1 and re.match(r"only=\d+ proved=\d+\b", lines[-1])
        if not is_judged or any(self.rt.unread(it, texts) for it in lines) or self.rt.rtlib.STALE.search(ran.stdout):
            return []
        return refused_of(edits, ran.stdout) if len(edits) > 1 else [it for it in edits if not kept_promise(it, ran.stdout)]

    def attempt(self, crate, edit):
        """Tries an edit alone. Returns whether it is refused as it says, and what to say."""
        label, began = label_of(crate, edit), time.time()
        texts, why = self.rt.read_edit(edit, crate.folder)
        is_refused, text = True, f"{label}: refused, as it must be"
        if why or not self.refused(crate, [edit], texts):
            is_refused, is_at_limit, text = verdict_on(self.rt, crate, edit)
            wrong = kept_promise(edit, self.said.log) if is_refused else None
            if wrong:
                is_refused, text = False, f"{label}: REFUSED FOR ANOTHER REASON: {wrong}"
            elif is_at_limit:
                text = f"{label}: REFUSED ONLY BY A LIMIT of the prover, which gave no verdict: choose a change that it refuses sooner"
        print(f"{text} ({time.time() - began:.0f} s)", flush=True)
        return is_refused, text

    def cleared(self, crate, edits):
        """Returns those of some edits that a check with others refuses for their own sake. Where a check of all of them says nothing of any, as where one
        does not compile, each half of them is tried."""
        if len(edits) < 2:
            return []
        clear, half = self.refused(crate, edits, texts_of(edits, crate.folder)), len(edits) // 2
        return clear if clear or len(edits) < 4 else [*self.cleared(crate, edits[:half]), *self.cleared(crate, edits[half:])]

    def attempt_all(self, crate, edits, given):
        """Tries a group of edits. Returns, edit by edit, whether it is refused as it says, and what to say."""
        if not given[crate.name, "proof"]:
            return [(False, f"{label_of(crate, it)}: not tried") for it in edits]
        began = time.time()
        clear = [] if began > self.until else self.cleared(crate, edits)
        each = (time.time() - began) / len(edits)
        for edit in clear:
            print(f"{label_of(crate, edit)}: refused, as it must be, with {len(edits) - 1} others ({each:.0f} s)", flush=True)
        found = {edit: (True, "") for edit in clear}
        for edit in edits:
            if edit not in found and time.time() <= self.until:
                found[edit] = self.attempt(crate, edit)
        self.leave(len(edits) - len(found))
        false = self.choice.note(crate, [*found], [refused for refused, _ in found.values()])
        why = f"\nand yet {record.PATH} says that it was refused, with nothing changed since: that line is forged or stale"
        return [(refused, text + why * is_false) for (refused, text), is_false in zip(found.values(), false)]

    def leave(self, number):
        """Counts edits that are left for another run."""
        with self.choice.alone:
            self.left += number

    def groups(self):
        """Returns the groups of edits to try, by crate, lowest first."""
        return {it: groups_of(self.choice.tried.get(it, []), it.folder) for it in self.crates}

    def needed(self):
        """Returns the crates with edits to try and those below them, lowest first."""
        found = {it for crate, edits in self.choice.tried.items() if edits for it in [crate, *crate.below()]}
        return [it for it in self.crates if it in found]

    def mark(self, names):
        """Notes that `rt ci` has proved these crates, where the toolchain keeps nothing of that itself."""
        if hasattr(self.kept, "mark"):
            for crate in [it for it in self.crates if it.name in names]:
                self.kept.mark(crate)

    def try_beside(self, ended):
        """Tries edits of the crates that `rt ci` has proved by now, until it has ended."""
        left, waiting, running, groups = self.needed(), [], {}, self.groups()
        pool = ThreadPoolExecutor(BESIDE)
        while not ended.wait(1) and (left or waiting):
            self.mark(ended.proved())
            for crate in [it for it in left if all((below.name, "proof") in self.given for below in it.below())]:
                os.makedirs(f"{crate.folder}/out", exist_ok=True)
                if self.kept.give(crate, False, self.kept.key(crate)):
                    self.kept.is_built(crate)
                    self.given[crate.name, "proof"] = True
                    left.remove(crate)
                    waiting += [(crate, it) for it in groups[crate]]
            running = {key: it for key, it in running.items() if not it.done()}
            while waiting and len(running) < BESIDE and self.rt.free() > FREE:
                crate, edits = waiting.pop(0)
                key = crate.name, "edits", *edits
                running[key] = self.given[key] = pool.submit(self.attempt_all, crate, edits, self.given)
        pool.shutdown(wait=False)

    def tasks(self):
        """Returns what rt's own lanes are to run: crates that are proved, and edits."""
        groups, tasks = self.groups(), {}
        for crate in self.needed():
            # rt gives its word proof the processors that are idle, and one to each task named edits. About 20 lines of code are proved in a second.
            waits, seconds = [(it.name, "proof") for it in crate.below()], crate.count(rb"\n") // 20
            call = lambda given, jobs, it=crate: self.given.get((it.name, "proof")) or self.prove(it, given, jobs)
            tasks[crate.name, "proof"] = (waits, seconds, self.rt.need(crate), call)
            # An edit of a high crate takes longest, 27 seconds in asgi_conn and 5 in asgi_types, and is best begun first.
            each = 4 + 2 * len(crate.below())
            for edits in groups[crate]:
                if (crate.name, "edits", *edits) in self.given:
                    continue
                call = lambda given, jobs, it=crate, edits=edits: self.attempt_all(it, edits, given)
                tasks[crate.name, "edits", *edits] = ([(crate.name, "proof")], SECONDS + each * len(edits), MEMORY, call)
        return tasks

    def run(self):
        """Tries all edits. Returns how many were refused, and what is said of the others."""
        if self.choice.asked.beside:
            os.nice(19)
            told = Told()
            self.try_beside(told)
            self.mark(told.proved())
        given = self.rt.in_lanes(self.tasks())
        given |= {key: it.result() for key, it in self.given.items() if key[1] == "edits"}
        found = [it for key, its in given.items() if key[1] == "edits" for it in its]
        if self.left:
            print(f"edits: {self.left} were not begun within {self.choice.asked.minutes:g} minutes, and are as due as before", flush=True)
        return sum(refused for refused, _ in found), [text for refused, text in found if not refused]


class Told:
    """What the input tells of a run of `rt ci`: a line for each crate that it has proved, and its end by the end of the input."""

    def __init__(self):
        self.ended, self.alone, self.names, self.text = threading.Event(), threading.Lock(), set(), b""
        threading.Thread(target=self.read, daemon=True).start()

    def read(self):
        # Not through sys.stdin: where all edits are tried before the input ends, the end of the program would wait for its lock, and fail.
        while more := os.read(0, 1 << 16):
            *lines, self.text = (self.text + more).split(b"\n")
            with self.alone:
                self.names |= {it.decode() for it in lines}
        self.ended.set()

    def wait(self, seconds):
        """Waits so long for the end of the run at the most. Returns whether it has ended."""
        return self.ended.wait(seconds)

    def proved(self):
        """Returns the names of the crates that were told since this was last asked."""
        with self.alone:
            names, self.names = self.names, set()
        return names


def copy_repository(root, room, asked):
    """Copies what a check reads, and each wanted edit to where rt looks for it."""
    for name in ("crates.txt", "HANDLES"):
        shutil.copyfile(f"{root}/{name}", f"{room}/{name}")
    left = [] if asked.all or asked.read else ["must-fail"]
    left += [] if asked.warm else ["out"]
    shutil.copytree(f"{root}/crates", f"{room}/crates", ignore=shutil.ignore_patterns(*left), copy_function=copied)
    folder = f"{root}/tests/edits"
    for name in sorted(os.listdir(folder)) if os.path.isdir(folder) else []:
        if os.path.isdir(f"{room}/crates/{name}"):
            shutil.copytree(f"{folder}/{name}", f"{room}/crates/{name}/must-fail", dirs_exist_ok=True)


def try_edits(rt, root, asked, commit):
    """Tries or reads the edits of a repository. Returns how many passed, and what is said of the others."""
    with tempfile.TemporaryDirectory(prefix="edits-") as room:
        copy_repository(root, room, asked)
        crates = crates_in(rt, room)
        edits = Edits(rt, root, asked, crates)
        passed = edits.read()
        if asked.read or edits.failed:
            return passed * asked.read, edits.failed
        sums = record.Sums(crates, record.read(f"{rt.KIT}/KIT-ID"), record.read(f"{room}/HANDLES"))
        choice = Choice(root, edits.wanted, sums, asked, commit)
        print(choice.told(), flush=True)
        return Trial(rt, room, crates, choice).run()


def main(words):
    asked = read_words(words)
    if asked.jobs:
        os.environ["RT_JOBS"] = asked.jobs
    passed, failed = try_edits(load_rt(), TOP, asked, record.commit_of(TOP))
    for it in failed:
        print(f"FAILED: {it}")
    print(f"{passed} passed, {len(failed)} failed")
    return 1 if failed or not passed else 0


if __name__ == "__main__":
    sys.exit(main(sys.argv[1:]))

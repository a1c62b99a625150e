"""Runs the cells of calls.c for constant-time.sh, joins what memcheck and the traces of QEMU's plugin say, and writes the table.

A site is an instruction, of which one of these is said:
  branch    a conditional jump, or a jump to an address, that depends on a secret: memcheck reports it, or traces part there
  address   an instruction that reads or writes at an address that depends on a secret: the same
  verdict   a branch, or an address if verdicts.txt says so, that memcheck reports, at which the traces of all secrets agree as
            long as the verdict is the same, which goes elsewhere when the verdict is another one, and which verdicts.txt names.
            The verdict is public.
"""
import argparse
import concurrent.futures
import functools
import os
import pathlib
import random
import re
import subprocess
import sys

NAMES = {"1": "ChaCha20-Poly1305", "2": "AES-128-GCM", "3": "AES-192-GCM", "4": "AES-256-GCM", "5": "AES-128-GCM-SIV",
         "6": "AES-256-GCM-SIV", "16": "key wrap, AES-128", "24": "key wrap, AES-192", "32": "key wrap, AES-256"}
KEYS = {"1": 32, "2": 16, "3": 24, "4": 32, "5": 16, "6": 32, "16": 16, "24": 24, "32": 32}
FILE_COMMANDS = [("seal-file", "ok")] + [("open-file", variant) for variant in ("ok", "no", "second", "last")]
SIV_COMMANDS = [("seal-file", "last")]
WRAP_COMMANDS = [(command + pad, variant) for pad in ("", " --pad")
                 for command, variant in (("wrap", "ok"), ("unwrap", "ok"), ("unwrap", "no"))]
# What the table says of the variants of a call, and with which status the program ends: the call succeeds; it refuses; or one reading
# of a file is over other bytes than those before it: the second of an opening has another tag, the last one another text.
VARIANTS = {"ok": "", "no": ", refused", "second": ", second reading changed", "last": ", last reading changed"}
# The columns of the file of --record. The compiler is the kit, or rustc with its version. `traces` counts the runs of each call over
# every length with several secrets, `memcheck` the calls that memcheck looked at; branches, addresses and verdicts are places in the
# library.
COLUMNS = ("compiler", "build", "suite", "calls", "traces", "instructions", "memcheck", "lengths of memcheck", "branches", "addresses",
           "verdicts", "commit")
STATUSES = {"ok": 0, "no": 1, "second": 3, "last": 3}
# The names of the library's calls. That of a command of the program is two words or more.
OF_LIBRARY = r"\S+"
# Under --short memcheck looks at all calls of one suite of each construction, and of the others at these. AES-192 has a schedule of
# its own.
SHORT_SUITES = ("1", "2", "6", "16")
SHORT_CALLS = r"seal_in_place|open_in_place|key_init|seal_with|wrap|unwrap"
# Only these calls return a verdict: no other call has a status that depends on a secret.
VERDICTS = r"open(_in_place)?(_with)?|opener_begin_second|opener_finish|siv_finish|unwrap(_padded)?"
# More bytes than a stretch of code has that valgrind translates at once.
STRETCH = 800
# Instructions whose time depends on their operands on some processors. Neither run sees that.
VARIABLE = re.compile(r"(v?(i?div[bwlq]?|pdep|pext|[sd]?div[sp][sd]|sqrt[sp][sd]|p?gather\w+|pcmp[ei]str\w)|[us]div|f(div|sqrt)) ")
# What objdump puts behind an instruction: the symbol of an address, or a comment. A number of AArch64 has the sign # too.
COMMENT = re.compile(r" <|#(?![-\dx])|//")
# Conditional jumps of both processors.
JUMP = re.compile(r"j[^m]|b\.|cbn?z |tbn?z ")
# What rustc writes into the objects that it makes.
RUSTC = re.compile(rb"rustc version (\S+)")
# In the name of a function the modules in which cargo has the sources, and rustc's numbers of crates and functions; and generic
# arguments, or a type, perhaps with the trait whose method the function is.
OF_RUSTC = re.compile(r"\baeadkit(\[\w+\])?::(proved::)?|\[\w+\](?=::)|::h[0-9a-f]{16}$")
ARGUMENTS = re.compile(r"(::|(?<=\w))?<([^<>]*?)(?: as (?:[^<>]*::)?(\w+))?>")
# `bt` of registers: valgrind computes it by way of memory, and reports the number of the bit as an address.
BIT_OF_REGISTER = re.compile(r"bt[scr]?[lqw]? +%\w+,%\w+$")

options = argparse.ArgumentParser()
for option in ("room", "builds", "suites", "calls", "claimed", "jobs", "verdicts", "lengths", "write", "record", "commit", "qemu",
               "native", "memcheck", "objdump"):
    options.add_argument("--" + option)
options = options.parse_args()
# The words that run a program for the library's processor under QEMU, as fast as possible, and under memcheck.
qemu, native, memcheck = options.qemu.split(), options.native.split(), options.memcheck.split()
environment = dict(os.environ, LD_BIND_NOW="1")


def run(*words, **variables):
    """Runs words and returns all that was printed."""
    return subprocess.run(words, env=dict(environment, **variables), stdout=subprocess.PIPE, stderr=subprocess.STDOUT, text=True)


def traced(words, variables, *options_of_qemu):
    """The words and the variables of a run under QEMU. A library that is put before others is not put before those of QEMU."""
    variables = dict(environment, **variables)
    before = variables.pop("LD_PRELOAD", None)
    inside = ["-E", f"LD_PRELOAD={before}", "-E", "TRACED=1"] if before else []
    return [*qemu, *options_of_qemu, *inside, *words], variables


@functools.cache
def named(symbol):
    """The name of a function, the same for each compiler: without generic arguments, and Type and Trait joined, as the kit does."""
    name, count = OF_RUSTC.sub("", run("c++filt", "-s", "rust", symbol).stdout.strip()), 1
    while count:
        name, count = ARGUMENTS.subn(lambda found: "" if found[1] is not None else found[2] + (found[3] or ""), name)
    return name


class Objects:
    """The objects of a process, to which addresses belong, as it prints them itself. A place is an object and an address in it."""

    def __init__(self, output):
        rows = [line.split(maxsplit=4) for line in output.splitlines() if line.startswith("object ")]
        self.rows = [(int(low, 16), int(high, 16), int(bias, 16), re.sub(r"(\.so)\.[\d.]+$", r"\1", os.path.basename(name)))
                     for _, low, high, bias, name in rows]

    def place(self, address):
        for low, high, bias, name in self.rows:
            if low <= address < high:
                return name, address - bias
        return "other memory", address

    def address(self, place):
        return next((bias + place[1] for _, _, bias, name in self.rows if name == place[0]), None)


class Target:
    """A program of one build that is looked at: calls.c over the library, or aeadkit itself behind program.c."""

    def __init__(self, build, path, words, **variables):
        self.build, self.path = build, path
        with open(f"{os.path.dirname(path)}/libaeadkit.so", "rb") as library:
            found = RUSTC.search(library.read())
        self.compiler = f"rustc {found[1].decode()}" if found else "kit"
        # Under QEMU the objects lie elsewhere than under memcheck.
        command, variables = traced([path, *words], variables)
        output = run(*command, **variables).stdout
        self.traced = Objects(output)
        self.marks = re.search("marks (.*)", output)[1].split()
        self.code = {}
        for name in {"libaeadkit.so", os.path.basename(path)} & {row[3] for row in self.traced.rows}:
            for line in run(options.objdump, "-d", "--no-show-raw-insn", f"{os.path.dirname(path)}/{name}").stdout.splitlines():
                if line.endswith(">:"):
                    function = line[line.index("<") + 1:-2]
                elif ":\t" in line:
                    at, instruction = line.split(":\t", 1)
                    self.code[name, int(at, 16)] = function, re.sub(r"\s+", " ", COMMENT.split(instruction)[0]).strip()

    def where(self, place):
        """The function and the instruction that stand at a place."""
        function, instruction = self.code.get(place, (place[0], "?"))
        return named(function), instruction


class Site:
    def __init__(self):
        self.taint = self.trace = False
        self.low = self.high = None


class Cell:
    """One call of one suite in one build, and what both ways of looking say of it."""

    def __init__(self, target, suite, call, variant):
        self.target, self.suite, self.call, self.variant = target, suite, call, variant
        self.label = f"{target.build}: suite {suite}, {call} {variant}"
        self.sites, self.ran, self.went, self.faults = {}, set(), {}, []
        self.runs = self.instructions = self.undefined = 0

    def commands(self, way):
        """The runs of the call: their words and their variables."""
        if self.call.startswith("aeadkit "):
            return program_runs(self, way)
        lengths = options.lengths if way == "taint" else "whole"
        return [([self.target.path, way, self.suite, self.call, self.variant, lengths], {})]

    def status(self):
        """The status that each run has to end with."""
        return STATUSES[self.variant] if self.call.startswith("aeadkit ") else 0

    def reports(self, more):
        """Returns what memcheck reports: places and kinds."""
        found = set()
        for words, variables in self.commands("taint"):
            log = f"{options.room}/{self.target.build}/{self.suite}.{self.call}.{self.variant}.log"
            taint = run(*memcheck, "-q", "--num-callers=1", "--error-limit=no", "--leak-check=no", f"--log-file={log}", more,
                        "--soname-synonyms=somalloc=nouserintercepts", *words, **variables)
            if taint.returncode != self.status():
                self.faults.append(f"under memcheck the status is {taint.returncode}: {taint.stdout.splitlines()[-1]}")
            self.undefined += sum(int(line.split()[3]) for line in taint.stdout.splitlines() if line.startswith("group "))
            objects, kind = Objects(taint.stdout), None
            with open(log, encoding="utf-8") as lines:
                for line in lines:
                    line = re.sub(r"^==\d+== ?", "", line.rstrip())
                    row = re.match(r"   at 0x([0-9A-F]+):", line)
                    if line.startswith("Conditional jump or move"):
                        kind = "branch"
                    elif line.startswith("Use of uninitialised value"):
                        kind = "address"
                    elif row and kind:
                        place = objects.place(int(row[1], 16))
                        if not BIT_OF_REGISTER.match(self.target.where(place)[1]):
                            found.add((place, kind))
                        kind = None
                    elif line and "More than 100 errors" not in line and "will still be recorded" not in line:
                        self.faults.append(f"memcheck: {line}")
        return found

    def is_tainted(self):
        """Whether memcheck looks at the cell."""
        return bool(memcheck) and (options.lengths == "whole" or self.suite in ("0", *SHORT_SUITES)
                                   or bool(re.fullmatch(SHORT_CALLS, self.call)))

    def taint(self):
        if not self.is_tainted():
            return
        # Within a stretch of code that valgrind translates at once memcheck reports a value once, and takes it as public from
        # then on. So a stretch is one instruction in the first run. In the second it is a whole one, since over a stretch memcheck
        # knows which of the flags a jump tests. A jump that only the first run reports counts if a site stands shortly before it.
        single = self.reports("--vex-guest-max-insns=1")
        whole = self.reports("--vex-guest-chase=no")
        before = [place for place, kind in single | whole if kind == "address" or (place, kind) in whole]
        for place, kind in single | whole:
            near = any(name == place[0] and 0 < place[1] - at < STRETCH for name, at in before)
            if kind == "address" or (place, kind) in whole or near:
                self.sites.setdefault((place, kind), Site()).taint = True

    def trace(self, places):
        """Traces the runs, and follows where they go from these places."""
        objects = self.target.traced
        followed = [f"{objects.address(place):x}" for place in places if objects.address(place)]
        read, write = os.pipe()
        cut = subprocess.Popen([f"{options.room}/traces", *self.target.marks, *followed], stdin=read, stdout=subprocess.PIPE,
                               text=True)
        os.close(read)
        lengths = []
        marks = ",".join(f"{name}={mark}" for name, mark in zip(("group", "secret", "on", "off"), self.target.marks))
        for words, variables in self.commands("trace"):
            words, variables = traced(words, variables, "-plugin", f"{options.room}/plugin.so,fd={write},{marks}")
            done = subprocess.run(words, pass_fds=[write], env=variables, stdout=subprocess.PIPE, stderr=subprocess.STDOUT, text=True)
            if done.returncode != self.status():
                self.faults.append(f"under QEMU the status is {done.returncode}: {(done.stdout.splitlines() or [''])[-1]}")
            lengths += [tuple(line.split()[1:3]) for line in done.stdout.splitlines() if line.startswith("group ")]
        os.close(write)
        output = cut.communicate()[0]
        for line in output.splitlines():
            kind, *row = line.split()
            if kind == "site":
                place = objects.place(int(row[0], 16))
                if not BIT_OF_REGISTER.match(self.target.where(place)[1]):
                    site = self.sites.setdefault((place, row[1]), Site())
                    site.trace, site.low, site.high = True, int(row[2], 16), int(row[3], 16)
            elif kind == "ran":
                self.ran.add(objects.place(int(row[0], 16)))
            elif kind == "went" and int(row[3]):
                self.went.setdefault(objects.place(int(row[0], 16)), {})[lengths[int(row[1])]] = row[2:]
            elif kind == "runs":
                self.runs, self.instructions = map(int, row)
            elif kind == "lost":
                self.faults.append("runs part and do not come together")
        if not self.runs:
            self.faults.append("nothing was traced")

    def follows_verdict(self, place, others):
        """Whether a site goes another way at another verdict: another status, or another length of the text of a wrapping."""
        mine = self.went.get(place, {})
        for its in (other.went.get(place, {}) for other in others):
            if any(way != its[lengths] for lengths, way in mine.items() if lengths in its):
                return True
        return self.call in ("unwrap_padded", "aeadkit unwrap --pad") and any(
            way != of for (n, _), way in mine.items() for (m, _), of in mine.items() if (int(n) + 7) // 8 == (int(m) + 7) // 8)


def program_runs(cell, way):
    """The runs of a command of aeadkit: over texts of several lengths, and in a trace with several secrets."""
    _, command, *pad = cell.call.split()
    path = cell.target.path
    room = f"{os.path.dirname(path)}/{cell.suite}.{cell.call}.{cell.variant}".replace(" ", ".")
    lengths = (9, 16, 20) if pad else (24, 40) if int(cell.suite) > 6 else (17, 300, 5000)
    for length in lengths if way == "trace" or options.lengths == "whole" else lengths[:2]:
        for secret in range(1 if way == "taint" else 3):
            draw = random.Random(f"{cell.suite} {length} {secret}").randbytes
            key, text = draw(KEYS[cell.suite]).hex(), draw(length)
            variables = dict(LD_PRELOAD=f"{options.room}/program.so", SECRETS=key, GROUP="-----" if secret else f"{length:05}")
            if int(cell.suite) > 6:
                words = ["--key", key, *pad, "--text", text.hex()]
                if command == "wrap":
                    variables["SECRETS"] += " " + text.hex()
                else:
                    wrapped = bytes.fromhex(run(path, "wrap", *words).stdout)
                    words[-2:] = ["--sealed", forged(cell, wrapped, secret).hex()]
                    if pad and way == "taint":
                        variables["PUBLIC"] = str(length)
            else:
                words = ["--suite", NAMES[cell.suite].lower(), "--key", key, "--nonce", "01" * 12, "--aad", "02" * 5,
                         "--in", f"{room}.in", "--out", f"{room}.out"]
                write_file(f"{room}.in", text)
                if cell.variant in ("second", "last"):
                    variables["CHANGED"] = "3" if (command, cell.variant) == ("open-file", "last") else "2"
                    # Where a tag that is read is another one is not secret: so it is the same place for each secret.
                    at = (length - 1, 0, 8)[secret] if cell.variant == "last" else length + 8
                    variables["DIFFERENCE"] = f"{at:05}"
                if command == "seal-file":
                    variables["READS"] = "secret"
                else:
                    run(path, "seal-file", *words)
                    with open(f"{room}.out", "rb") as sealed:
                        write_file(f"{room}.in", forged(cell, sealed.read(), secret))
                    os.remove(f"{room}.out")
            yield [path, command, *words], variables


def forged(cell, sealed, secret):
    """Sealed bytes, where the cell wants a refusal with a byte of the tag changed, for each secret another one."""
    at = len(sealed) - (1, 16, 8)[secret]
    return sealed if cell.variant != "no" else sealed[:at] + bytes([sealed[at] ^ 1]) + sealed[at + 1:]


def write_file(path, content):
    with open(path, "wb") as out:
        out.write(content)


def lines_of(path):
    """Rows 'CALLS FUNCTION [address] # REASON', as calls, function and kind of site."""
    with open(path, encoding="utf-8") as lines:
        rows = [line.partition("#")[0].split() for line in lines if line.strip() and not line.startswith("#")]
    return [(calls, function, *kind) if kind else (calls, function, "branch") for calls, function, *kind in rows]


def claims(cell):
    """Whether the cell is claimed to have no site but verdicts: a word of --claimed is SUITE, for the library, or SUITE:CALLS."""
    words = [word.partition(":") for word in options.claimed.split()]
    return any(suite == cell.suite and re.fullmatch(calls or OF_LIBRARY, cell.call) for suite, _, calls in words)


def asked(suite, call):
    """Whether a call of a suite is to be looked at."""
    return suite in options.suites.split() and re.fullmatch(options.calls, call)


def commands_of(suite):
    """The commands of the program that work under a suite."""
    if int(suite) > 6:
        return WRAP_COMMANDS
    return FILE_COMMANDS + SIV_COMMANDS if NAMES[suite].endswith("SIV") else FILE_COMMANDS


def program_cells(build):
    """The program of a build, and its suites, commands and variants that are to be looked at."""
    rows = [(suite, f"aeadkit {command}", variant) for suite in NAMES
            for command, variant in commands_of(suite)]
    rows = [row for row in rows if asked(*row[:2])]
    path = f"{options.room}/{build}/aeadkit"
    if rows and not os.path.exists(path):
        print(f"left out: the program of the build {build}, which is not in PREFIX")
        return []
    target = Target(build, path, ["--version"], LD_PRELOAD=f"{options.room}/program.so") if rows else None
    return [(target, *row) for row in rows]


def all_cells(builds):
    """The cells to look at, and the numbers of sites that known code has. It is run in one build, since it is the same in both."""
    cells, known = {}, {}
    for build in builds:
        folder = f"{options.room}/{build}"
        calls = Target(build, f"{folder}/calls", ["trace", "0", "-", "ok", "short"])
        rows = [(calls, *line.split()) for line in run(*native, calls.path, "cells").stdout.splitlines()]
        for target, suite, call, variant, *numbers in rows + program_cells(build):
            if suite == "0":
                known[call] = [int(number) for number in numbers]
            if asked(suite, call) or suite == "0" and build == builds[0]:
                cells[build, suite, call, variant] = Cell(target, suite, call, variant)
    return cells, known


def siblings(cells, cell):
    """The cells of the same call, in all its variants."""
    return [other for other in cells.values()
            if (other.target, other.suite, other.call) == (cell.target, cell.suite, cell.call)]


def look(cells, pool):
    """Looks at all cells, in both ways. The traces of a call follow the sites of all its variants."""
    list(pool.map(Cell.taint, cells.values()))
    places = [{place for other in siblings(cells, cell) for place, _ in other.sites} for cell in cells.values()]
    list(pool.map(Cell.trace, cells.values(), places))


def judge(cells, known):
    """Returns the counts of each call, the places, what fails, and the lines of verdicts.txt that no site needed."""
    failures, places, counts, verdicts = [], {}, {}, lines_of(options.verdicts)
    unused = list(verdicts)
    for (name, suite, call, variant), cell in cells.items():
        failures += [f"{cell.label}: {fault}" for fault in cell.faults]
        if suite == "0":
            found = [sum(1 for (_, kind), site in cell.sites.items() if kind == of and getattr(site, by))
                     for by in ("taint", "trace") for of in ("branch", "address")]
            if not cell.is_tainted():
                found[:2] = known[call][:2]
            if found != known[call]:
                failures.append(f"known code {call}: {found} in the place of {known[call]}")
            continue
        if cell.undefined and not re.fullmatch(VERDICTS, call):
            failures.append(f"{cell.label}: the status depends on a secret")
        count = counts.setdefault((suite, call, variant), {})[name] = {"branch": 0, "address": 0, "verdict": 0}
        others = [other for other in siblings(cells, cell) if other is not cell]
        for (place, kind), site in cell.sites.items():
            function, instruction = cell.target.where(place)
            if not site.trace and cell.follows_verdict(place, others):
                named = [row for row in verdicts
                         if re.fullmatch(row[0], call) and re.fullmatch(row[1], function) and row[2] == kind]
                unused = [row for row in unused if row not in named]
                kind = "verdict" if named else kind
            count[kind] += 1
            places.setdefault((function, kind), {}).setdefault((name, place), []).append((cell, site))
            if kind != "verdict" and claims(cell):
                failures.append(f"{cell.label}: {kind} at {function}, {place[0]}+{place[1]:#x}: {instruction}")
    return counts, places, failures, unused


def markdown(rows):
    """The lines of a table, the first of which is its head."""
    for number, row in enumerate(rows):
        yield "| " + " | ".join(row) + " |"
        if number == 0:
            yield "|---" * len(row) + "|"


def some(names):
    names = sorted(names)
    return ", ".join(names[:4]) + (f" and {len(names) - 4} others" if len(names) > 4 else "")


def spans(at):
    """Which objects the addresses of places belong to, and how far apart they are at most in traces."""
    found = {}
    for cell, site in (row for of in at.values() for row in of):
        if site.trace:
            name = cell.target.traced.place(site.low)[0]
            found[name] = max(found.get(name, 0), site.high - site.low)
    return ", ".join(f"{name} up to {apart} bytes apart" for name, apart in sorted(found.items()) if apart)


def table(builds, counts, places):
    """The lines of the table: the numbers of each call, the functions that have a site, and the instructions."""
    yield "# Instructions that depend on a secret"
    yield ""
    rows = [["suite", "call"] + [f"{build}: {what}" for build in builds for what in ("branches", "addresses", "verdicts")]]
    for (suite, call, variant), of in sorted(counts.items(), key=lambda row: int(row[0][0])):
        rows.append([NAMES[suite], call + VARIANTS[variant]]
                    + [str(of[build][kind]) for build in builds for kind in ("branch", "address", "verdict")])
    yield from markdown(rows)
    yield ""
    rows = [["function", "what"] + builds + ["suites", "calls", "reads or writes"]]
    instructions = [["build", "place", "instruction", "what", "found by"]]
    for (function, kind), at in sorted(places.items(), key=lambda row: (row[0][1], row[0][0])):
        cells = [cell for of in at.values() for cell, _ in of]
        rows.append([f"`{function}`", kind] + [str(sum(1 for name, _ in at if name == build)) for build in builds]
                    + [", ".join(sorted({cell.suite for cell in cells}, key=int)), some({cell.call for cell in cells}), spans(at)])
        for (name, place), of in sorted(at.items()):
            by = [way for way in ("taint", "trace") if any(getattr(site, way) for _, site in of)]
            instruction = of[0][0].target.where(place)[1]
            instructions.append([name, f"`{function}`, {place[0]}+{place[1]:#x}", f"`{instruction}`", kind, ", ".join(by)])
    yield from markdown(rows)
    yield ""
    yield from markdown(instructions)


def summary(target, cells):
    """What can be said of a build's library beside its sites."""
    code = {at: of for at, of in target.code.items() if at[0] == "libaeadkit.so"}
    variable = {named(function) for function, instruction in code.values() if VARIABLE.match(instruction + " ")}
    yield f"{target.build}: divisions, square roots, gathers, pdep and pext: {', '.join(sorted(variable)) or 'none'}"
    ran = set().union(*[cell.ran for cell in cells])
    jumps = {at: function for at, (function, instruction) in code.items() if JUMP.match(instruction)}
    never = {named(function) for function in set(jumps.values()) - {code[at][0] for at in ran if at in code}}
    yield f"{target.build}: {sum(1 for at in jumps if at in ran)} of {len(jumps)} conditional jumps of the library ran in a trace"
    yield f"{target.build}: functions with jumps that did not run: {', '.join(sorted(never)) or 'none'}"


def record(cells, places):
    """Puts a row for each compiler, build and suite into the file of --record, also in the place of one by another rustc."""
    path, new = pathlib.Path(options.record), {}
    for cell in cells.values():
        if cell.suite != "0" and re.fullmatch(OF_LIBRARY, cell.call):
            new.setdefault((cell.target.compiler, cell.target.build, cell.suite), []).append(cell)
    old = path.read_text(encoding="utf-8").splitlines() if path.exists() else []
    old = [row.split("\t") for row in old if not row.startswith("#")]
    rows = {(row[0].split()[0], *row[1:3]): row for row in old}
    for (compiler, build, suite), of in new.items():
        found = {kind: {place for (_, its), at in places.items() if its == kind for (name, place), by in at.items()
                        if name == build and any(cell in of for cell, _ in by)} for kind in ("branch", "address", "verdict")}
        tainted = sum(cell.is_tainted() for cell in of)
        rows[compiler.split()[0], build, suite] = map(str, (
            compiler, build, suite, len(of), sum(cell.runs for cell in of), sum(cell.instructions for cell in of), tainted,
            {"whole": "all", "short": "some"}[options.lengths] if tainted else "none", *map(len, found.values()), options.commit))
    order = sorted(rows, key=lambda key: (key[0], ("default", "x86-64-v3", "aarch64").index(key[1]), int(key[2])))
    lines = ["# " + "\t".join(COLUMNS), *("\t".join(rows[key]) for key in order)]
    path.write_text("".join(f"{line}\n" for line in lines), encoding="utf-8")


def main():
    builds = options.builds.split()
    cells, known = all_cells(builds)
    with concurrent.futures.ThreadPoolExecutor(int(options.jobs)) as pool:
        look(cells, pool)
    counts, places, failures, unused = judge(cells, known)
    lines = [*table(builds, counts, places), ""]
    for target in dict.fromkeys(cell.target for cell in cells.values() if cell.suite != "0"):
        if target.path.endswith("/calls"):
            lines += summary(target, [cell for cell in cells.values() if cell.target is target])
    if options.lengths == "whole":
        lines += [f"not needed here: {' '.join(row[:2])} of verdicts.txt" for row in unused
                  if any(re.fullmatch(row[0], call) for _, _, call, _ in cells)]
    if options.write:
        with open(options.write, "w", encoding="utf-8") as out:
            out.writelines(line + "\n" for line in lines)
    else:
        print(*lines, sep="\n")
    if options.record:
        record(cells, places)
    for failure in failures:
        print("FAILED " + failure)
    sites = [kind for _, kind in places]
    print(f"{len(cells) - len(known)} cells, {sum(cell.runs for cell in cells.values())} traced runs of "
          f"{sum(cell.instructions for cell in cells.values())} instructions; "
          f"{sites.count('branch') + sites.count('address')} functions with sites, {sites.count('verdict')} with verdicts; "
          f"known code: {len(known)} functions; {len(failures)} failures")
    return 1 if failures else 0


sys.exit(main())

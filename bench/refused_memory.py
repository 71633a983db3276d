#!/usr/bin/env python3
"""Refuses each allocation of the programs in turn, and checks that the refusal is reported as it has to be.

    python3 bench/refused_memory.py [--step N] [--only WORD] crates/dtool/out/dtool crates/dt_cases/out/dt_cases

Each command of `dtool`, on small sources of a base and of two overlays and on their blobs, has to end with status 1, fault 1 of one of its
inputs, and nothing written; first while they are loaded, one after another, and then while they are worked on, one after another.

Each case of `dt_cases` runs by itself, but for those that repeat something a thousand times, which the script names. It has to answer fault 1 in the
place of what is right (90 where the sink is memory that grows), or to end with status 2 where its own table couldn't be read. Where it names the
input, the number never falls from one refused allocation to the next, and each input's occurs. A script of `tree` goes on behind the step to
which memory was refused, and prints of the tree what it would print without that step.

The right answer may come all the same only where the toolchain's library asked again, at once and for no more: `collect` asks for as much as
its iterator hints at, and where that is refused for what it needs.

Then the calls that take no memory are asked (`still`) of all that goes through the cases, while each allocation is refused: there may be none.
A C compiler makes what refuses (refusing.c)."""
import argparse
import bisect
import collections
import concurrent.futures
import functools
import os
import re
import subprocess
import sys
import tempfile

HERE = os.path.dirname(os.path.abspath(__file__))
DATA = os.path.join(HERE, "..", "crates", "dt_cases", "data")
SOURCES = {
    "base": b"""/dts-v1/; /memreserve/ 4096 8192; / { gic: ic@1 { phandle = <7>; #irq-cells = <1>; }; u: uart@2 { irq = <&gic 1>; old; dead { x; }; }; };
        &u { s = "on", [01 02], <(1 + 2) '!'>, &gic; /delete-property/ old; /delete-node/ dead; };""",
    "first": b"""/dts-v1/; /plugin/; &u { new: dev@1 { irq = <&gic 2>, <&new 3>; }; }; &{/ic@1} { wide; };""",
    "second": b"""/dts-v1/; /plugin/; &new { s = "x"; }; &{/} { n { p = <&new &gic>; }; };""",
}
TOLD = re.compile(r"dtool: input ([0-2]): fault 1 NoMemory\n")
ANSWER = re.compile(r": the answer is\n(.*?)and not\n", re.S)
REFUSED = re.compile(r"(?:input (\d+): )?fault 1 NoMemory\n|fault 90 WriteFault\n")
REPEATED = re.compile(r"^\*[ax]? (?:(\d+)\.\.)?(\d+) (.*)", re.M)
FAULT = "fault 1 NoMemory\n"

Program = collections.namedtuple("Program", "words given")


class Case(collections.namedtuple("Case", "name head lines samples")):
    """A case of a table: its place, its calls, its other lines, and the samples of its table that it names."""

    def text(self):
        return "\n\n".join([*self.samples, "\n".join([self.head, *self.lines])]) + "\n"

    def is_large(self):
        """Whether it repeats something a thousand times, or a long text often, or tries each change of each byte."""
        text = self.text()
        repeated = REPEATED.findall(text)
        often = sum(int(n) - int(first or 0) for first, n, _ in repeated) >= 1000 or any(int(n) * len(piece) >= 100_000 for _, n, piece in repeated)
        return often or self.head.endswith("damage") or "set-size" in text

    def inputs(self):
        return 1 + sum(line.startswith("--") for line in self.lines)

    def wanted(self):
        return "".join(line[2:] + "\n" for line in self.lines if line.startswith("= "))

    def with_calls(self, head):
        """The same with other calls, and nothing that has to come out."""
        return self._replace(head=head, lines=[line for line in self.lines if not line.startswith("= ")])

    def steps(self):
        """The steps of a script."""
        pieces = []
        for line in self.lines:
            if line.startswith("| "):
                pieces.append(line[2:])
            elif line.startswith("* "):
                (first, n, piece), = REPEATED.findall(line)
                pieces += [piece.replace("{}", str(count)) for count in range(int(first or 0), int(n))]
        return [step.strip() for step in "".join(pieces).split(";") if step.strip()]


def cases_in(data):
    """The cases of all tables of a folder."""
    for table in sorted(os.listdir(data)):
        with open(os.path.join(data, table)) as opened:
            blocks = opened.read().rstrip("\n").split("\n\n")
        samples, at, cases = {}, 1, []
        for block in blocks:
            lines = block.split("\n")
            head, *rest = [line for line in lines if not line.startswith("#")] or [""]
            if head.startswith("sample "):
                samples[head.removeprefix("sample ")] = "\n".join([head, *rest])
            elif head:
                cases.append((at, head, rest))
            at += len(lines) + 1
        for at, head, rest in cases:
            named = sorted({line[2:] for line in rest if line.startswith("@ ")})
            yield Case(f"{table}:{at}", head, rest, [samples[name] for name in named])


def run(program, shim, **told):
    """Runs a program under the shim, which reads what is told in capitals."""
    env = {**os.environ, "LD_PRELOAD": shim, **{name.upper(): str(value) for name, value in told.items()}}
    done = subprocess.run(program.words, input=program.given, capture_output=True, env=env)
    return done.returncode, done.stdout, done.stderr.decode()


@functools.cache
def symbols_of(file):
    """The places of a program's functions, and their names."""
    listed = subprocess.run(["nm", "-n", "--defined-only", file], capture_output=True, text=True, check=True).stdout
    lines = [line.split(" ", 2) for line in listed.splitlines()]
    return [int(place, 16) for place, *_ in lines], [name for _, _, name in lines]


def function_at(file, place):
    """The name of the program's function at a place."""
    places, names = symbols_of(file)
    at = bisect.bisect_right(places, place) - 1
    return names[at] if at >= 0 else "?"


def who_asked_again(program, shim, n):
    """The toolchain's function that asked again, at once and for no more, where allocation n was refused to it; or None."""
    with tempfile.NamedTemporaryFile("r") as asked:
        run(program, shim, refuse_allocation=n, tell_refused=asked.name)
        lines = [line.split() for line in asked.read().splitlines()]
    (size, asker), (next_size, next_asker) = lines if len(lines) == 2 else [("0", "0"), ("1", "1")]
    # (without what it is generic over)
    name, next_name = (function_at(program.words[0], int(it, 16)).split("::<")[0] for it in (asker, next_asker))
    return name if name == next_name and int(next_size) <= int(size) and name.startswith("std_alloc::") else None


class Sweep:
    """What came of a program to which each allocation was refused in turn."""

    def __init__(self, program, shim, step, is_told):
        with tempfile.NamedTemporaryFile("r") as count:
            self.whole = run(program, shim, count_allocations=count.name)
            self.allocations = int(count.read() or 0)
        self.tried = range(1, self.allocations + 1, step)
        self.told, self.again, self.wrong, self.inputs = 0, collections.Counter(), [], []
        if self.whole[0] != 0 or not self.allocations:
            self.wrong.append((0, self.whole))
        for n in self.tried:
            answer = run(program, shim, refuse_allocation=n)
            asker = who_asked_again(program, shim, n) if answer == self.whole else None
            if asker:
                self.again[asker] += 1
            elif is_told(answer, self.inputs):
                self.told += 1
            else:
                self.wrong.append((n, answer))

    def falls(self):
        """How often the number of the input fell from one refused allocation to the next."""
        return sum(one > next_one for one, next_one in zip(self.inputs, self.inputs[1:]))

    def check(self, is_right, what):
        if not is_right:
            self.wrong.append((0, what))


def told_by_tool(answer, inputs):
    status, out, said = answer
    told = TOLD.fullmatch(said)
    if told:
        inputs.append(int(told[1]))
    return status == 1 and out == b"" and bool(told)


def commands(dtool, room):
    """The commands of the program, on files that are made in a folder, with how many inputs each has."""
    sources = [os.path.join(room, f"{name}.dts") for name in SOURCES]
    blobs = [os.path.join(room, f"{name}.dtb") for name in SOURCES]
    for source, blob, text in zip(sources, blobs, SOURCES.values()):
        with open(source, "wb") as to:
            to.write(text)
        with open(blob, "wb") as to:
            subprocess.run([dtool, "compile", source], stdout=to, check=True)
    for inputs, words, given in [
        (1, ["compile", "stdin"], SOURCES["base"]),
        (1, ["compile", "--hex", sources[1]], b""),
        (3, ["apply", *blobs], b""),
        (3, ["build", *sources], b""),
        (1, ["print", blobs[0]], b""),
        (1, ["check", blobs[1]], b""),
        (1, ["regs", blobs[0]], b""),
        (1, ["irqs", blobs[0]], b""),
        (1, ["dma", blobs[0], "/uart@2", "16", "8"], b""),
        (1, ["spec", blobs[0], "/uart@2", "irq", "irq", "0"], b""),
    ]:
        yield inputs, Program([dtool, *words], given)


def sweep_command(inputs, program, shim, step):
    sweep = Sweep(program, shim, step, told_by_tool)
    sweep.check(sweep.falls() <= 1, f"inputs in the order {sweep.inputs}")
    sweep.check(step > 1 or set(sweep.inputs) == set(range(inputs)), f"inputs {set(sweep.inputs)} of {inputs}")
    return program.words[1], sweep


class Cases:
    """The program of cases, which reads its tables in a folder of this one."""

    def __init__(self, dt_cases, room, shim):
        self.dt_cases, self.room, self.shim = dt_cases, room, shim

    def of(self, name, cases):
        """The program on a folder with some cases as its only table."""
        folder = os.path.join(self.room, name.replace(":", "-"))
        os.makedirs(folder)
        with open(os.path.join(folder, "t.cases"), "w") as to:
            to.write("\n".join(case.text() for case in cases))
        return Program([self.dt_cases, folder], b"")

    def answer(self, case):
        """What comes out of a case."""
        status, _, said = run(self.of(case.name, [case]), self.shim)
        return case.wanted() if status == 0 else ANSWER.search(said)[1]

    def shorter(self, case):
        """What comes out of a script without each of its steps."""
        steps, wanted = case.steps(), [line for line in case.lines if line.startswith("= ")]
        without = [f"| {'; '.join(steps[:at] + steps[at + 1:])};" for at in range(len(steps))]
        return {self.answer(case._replace(name=f"{case.name}-{at}", lines=[line, *wanted])) for at, line in enumerate(without)}

    def sweep(self, case, step):
        program, shorter = self.of(case.name, [case]), functools.cache(lambda: self.shorter(case))

        def is_told(answer, inputs):
            status, _, said = answer
            told = ANSWER.search(said)
            if status != 1 or not told:
                return status == 2
            refused = REFUSED.fullmatch(told[1])
            if refused and refused[1]:
                inputs.append(int(refused[1]))
            is_script = case.head.split(" ")[0] == "tree" and told[1].count(FAULT) == 1
            return bool(refused) or (is_script and told[1].replace(FAULT, "") in shorter())

        sweep = Sweep(program, self.shim, step, is_told)
        sweep.check(sweep.falls() == 0, f"inputs in the order {sweep.inputs}")
        is_whole = step == 1 and sweep.inputs and "fault" not in case.wanted()
        sweep.check(not is_whole or set(sweep.inputs) == set(range(case.inputs())), f"inputs {set(sweep.inputs)} of {case.inputs()}")
        return case.name, sweep

    def still(self, cases):
        """Asks the calls that take no memory of what each case is given and each of its calls gives: how often, and how much they asked for."""
        asked = []
        for case in cases:
            calls = case.head.split(", ")
            for at in range(len(calls) + 1):
                asked += [case.with_calls(", ".join([*calls[:at], f"still {what}"])) for what in ("bytes", "blob", "source", "expression")]
        with tempfile.NamedTemporaryFile("r") as told:
            status, _, said = run(self.of("still", asked), self.shim, refuse_still=told.name)
            begun, refused = map(int, (told.read() or "0 0").split())
        print(f"calls that take no memory: {len(asked)} cases, which came to such calls {begun} times, {refused} allocations")
        return status == 1 and begun > 0 and refused == 0


def tell(title, sweeps):
    """Tells what came of some sweeps; whether all is right."""
    sum_of = lambda count: sum(count(sweep) for _, sweep in sweeps)
    again = sum((sweep.again for _, sweep in sweeps), collections.Counter())
    asked = "".join(f"{count} asked for again by {asker}, " for asker, count in again.items())
    wrong = [(name, *it) for name, sweep in sweeps for it in sweep.wrong]
    print(f"{title}: {sum_of(lambda it: it.allocations)} allocations, {sum_of(lambda it: len(it.tried))} refused in turn, "
          f"{sum_of(lambda it: it.told)} told, {asked}{len(wrong)} wrong", flush=True)
    for name, n, answer in wrong[:10]:
        print(f"  {name}, allocation {n}: {answer}")
    return not wrong


def main():
    parser = argparse.ArgumentParser(description=__doc__, formatter_class=argparse.RawDescriptionHelpFormatter)
    parser.add_argument("dtool")
    parser.add_argument("dt_cases")
    parser.add_argument("--step", type=int, default=1, help="refuse each Nth allocation only")
    parser.add_argument("--only", default="", help="only the cases whose place has this word in it, as `trees.cases`")
    options = parser.parse_args()
    with tempfile.TemporaryDirectory() as room, concurrent.futures.ThreadPoolExecutor(os.cpu_count()) as pool:
        shim = os.path.join(room, "refusing.so")
        subprocess.run(["cc", "-shared", "-fPIC", "-O1", os.path.join(HERE, "refusing.c"), "-o", shim, "-ldl"], check=True)
        of_cases = Cases(options.dt_cases, room, shim)
        cases = [case for case in cases_in(DATA) if options.only in case.name]
        small = [case for case in cases if not case.is_large()]
        by_command = list(pool.map(lambda it: sweep_command(*it, shim, options.step), commands(options.dtool, room)))
        by_case = list(pool.map(lambda it: of_cases.sweep(it, options.step), small))
        right = [tell(name, [(name, sweep)]) for name, sweep in by_command]
        right.append(tell(f"{len(small)} cases", by_case))
        print("left out, since they are large:", ", ".join(case.name for case in cases if case.is_large()))
        right.append(of_cases.still(small))
    sys.exit(0 if all(right) else 1)


if __name__ == "__main__":
    main()

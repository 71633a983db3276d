#!/usr/bin/env python3
"""Plants mistakes in real sources of a Linux tree, one at a time, and looks whether tools/dtc reports each with file, line and column.

    python3 bench/mistakes.py crates/dtool/out/dtool LINUX [-v]

LINUX is an unpacked source tree of Linux 6.12; gcc and dtc have to be installed. A mistake counts as found where the fault, or a note below it, is
in the file and on the line that was changed, or on the line of the next statement, where a missing character shows; where neither is so, on dtc's
line. The same is asked of tools/where. With -v each report is printed."""
import os
import re
import subprocess
import sys
import tempfile
from collections import Counter



def dts(arch, *names):
    return tuple(f"arch/{arch}/boot/dts/{name}" for name in names)


# Of each board its file, one of its chip's, and one between them.
BOARDS = {
    "imx8mm": dts("arm64", "freescale/imx8mm-evk.dts", "freescale/imx8mm.dtsi", "freescale/imx8mm-evk.dtsi"),
    "qcs404": dts("arm64", "qcom/qcs404-evb-4000.dts", "qcom/qcs404.dtsi", "qcom/qcs404-evb.dtsi"),
    "rk3399": dts("arm64", "rockchip/rk3399-rockpro64.dts", "rockchip/rk3399-base.dtsi", "rockchip/rk3399-rockpro64.dtsi"),
    "stm32": dts("arm", "st/stm32mp157c-dk2.dts", "st/stm32mp151.dtsi", "st/stm32mp15xx-dkx.dtsi"),
    "am625": dts("arm64", "ti/k3-am625-sk.dts", "ti/k3-am62-main.dtsi", "ti/k3-am62x-sk-common.dtsi"),
    "bcm2711": dts("arm64", "broadcom/bcm2711-rpi-4-b.dts") + dts("arm", "broadcom/bcm2711.dtsi", "broadcom/bcm2711-rpi.dtsi"),
    "fu540": dts("riscv", "sifive/hifive-unleashed-a00.dts", "sifive/fu540-c000.dtsi", "sifive/hifive-unleashed-a00.dts"),
    "p1020": dts("powerpc", "fsl/p1020rdb.dts", "fsl/p1020rdb.dtsi", "fsl/p1020rdb.dtsi"),
}
OVERLAYS = dts("arm64", "freescale/imx8mm-venice-gw72xx-0x-imx219.dtso", "ti/k3-am62x-sk-csi2-imx219.dtso",
               "rockchip/rk3588-edgeble-neu6a-wifi.dtso")


class Mistake:
    """A change of a file: what it is, the board's file, the changed file, its new lines, and the lines on which it may be found."""

    def __init__(self, kind, board, file, lines, wanted):
        self.kind, self.board, self.file, self.lines, self.wanted = kind, board, file, lines, wanted


def lines_of(linux, file):
    with open(os.path.join(linux, file)) as text:
        return text.read().split("\n")


def next_statement(lines, at):
    """The line of the next statement behind the line `at`, counted from 0; a comment is none."""
    comment = False
    for i in range(at + 1, len(lines)):
        text = lines[i].strip()
        if comment or text.startswith("/*"):
            comment = "*/" not in text
        elif text and not text.startswith("//") and not text.startswith("#"):
            return i
    return len(lines) - 1


def changed(linux, kind, board, file, pattern, change, n=0):
    """The n-th line that fits, changed."""
    lines = lines_of(linux, file)
    fits = [i for i, line in enumerate(lines) if re.search(pattern, line)]
    at = fits[n % len(fits)]
    lines[at] = change(lines[at])
    return Mistake(kind, board, file, lines, [at, next_statement(lines, at)])


def added(linux, kind, board, text, wanted, begin=False):
    """Lines behind the board's last, of which some may be the mistake's; or in front of the first block."""
    lines = lines_of(linux, board)
    at = len(lines)
    if begin:
        at = next(i for i, line in enumerate(lines) if line.startswith("/ {") or line.startswith("&"))
    new = text.split("\n")
    lines[at:at] = new
    return Mistake(kind, board, board, lines, [at + i for i in wanted])


def a_label(linux, file, n=0):
    """A label of a file that values refer to, too."""
    text = "\n".join(lines_of(linux, file))
    labels = [it for it in re.findall(r"^\t+(\w+): [\w,.@-]+ \{", text, re.M) if re.search(rf"<&{it}[ >]", text)]
    return labels[n % len(labels)]


def mistakes(linux):
    """The kinds and numbers of the review: references 9, blocks 7, twice 11, slips 30, overlays 10, none 3."""
    names = list(BOARDS)
    for i in range(5):
        board, soc, _ = BOARDS[names[i]]
        yield changed(linux, "reference: typo", board, soc, r"^\t+[\w,-]+ = <&\w+>;", lambda it: re.sub(r"<&(\w+)", r"<&\1zz", it), 3 + i)
    for i in (5, 6):
        yield added(linux, "reference: path", BOARDS[names[i]][0], "/ {\n\tzz-node {\n\t\tref = <&{/none/of/it}>;\n\t};\n};", [2])
    for i in (0, 2):
        board, soc, _ = BOARDS[names[i]]
        yield added(linux, "reference: deleted", board, f"/delete-node/ &{a_label(linux, soc, 1)};", [0])

    for i in range(3):
        board, _, middle = BOARDS[names[i]]
        yield changed(linux, "block: typo", board, middle, r"^&\w+ \{", lambda it: it.replace(" {", "zz {"), 2 + i)
    for i in (3, 4):
        yield added(linux, "block: delete", BOARDS[names[i]][0], "/delete-node/ &none_of_it;", [0])
    yield added(linux, "block: path", BOARDS["bcm2711"][0], "&{/none/of/it} {\n\tx;\n};", [0])
    plain = changed(linux, "block: no plugin", OVERLAYS[0], OVERLAYS[0], r"^/plugin/;", lambda it: "")
    plain.wanted = [next(i for i, line in enumerate(plain.lines) if line.startswith("&"))]
    yield plain

    for i in range(3):
        board, soc, _ = BOARDS[names[i]]
        yield added(linux, "twice: label", board, f"/ {{\n\t{a_label(linux, soc, 2)}: zz-node {{\n\t}};\n}};", [1])
    for i in range(3):
        board, soc, _ = BOARDS[names[i + 3]]
        yield changed(linux, "twice: property", board, soc, r'^\t\t+status = "\w+";$', lambda it: it + "\n" + it, 1)
    for i in (0, 6):
        yield added(linux, "twice: child", BOARDS[names[i]][0], "/ {\n\tzz {\n\t\tone {\n\t\t};\n\t\tone {\n\t\t};\n\t};\n};", [4])
    two = "/ {\n\tza {\n\t\tphandle = <0x777>;\n\t};\n\tzb {\n\t\tphandle = <0x777>;\n\t};\n};"
    yield added(linux, "twice: phandle", BOARDS["rk3399"][0], two, [5])
    for value in ("0", "1 2"):
        yield added(linux, "twice: bad phandle", BOARDS["qcs404"][0], f"/ {{\n\tza {{\n\t\tphandle = <{value}>;\n\t}};\n}};", [2])

    cut = lambda what: lambda it: it[::-1].replace(what, "", 1)[::-1]
    for i in range(6):
        board, soc, _ = BOARDS[names[i]]
        yield changed(linux, "slip: no ;", board, soc, r'^\t+[\w,-]+ = ("[^"]*"|<[^&>]*>);$', cut(";"), 5 + 7 * i)
    for i, what in enumerate(["{", "{", ">", ">", ">", "<", "<", '"', '"', '"', "{"]):
        board, soc, _ = BOARDS[names[i % 7]]
        pattern = {"{": r"^\t+\w+: [\w,@-]+ \{$", '"': r'^\t+[\w,-]+ = "[^"]*";$'}.get(what, r"^\t+[\w,#-]+ = <0?x?\d+>;$")
        yield changed(linux, f"slip: no {what}", board, soc, pattern, cut(what), 4 + i)
    for i in (1, 2, 7):
        board, soc, _ = BOARDS[names[i]]
        yield changed(linux, "slip: no };", board, soc, r"^\t+\};$", lambda it: it.replace("};", ""), 6)
    for old, new in (("<1>", "<NO_SUCH_MACRO>"), ("<1>", "<(1 + NO_SUCH_MACRO)>"), ("<1>", "<0xg1>"), ("<1>", "<089>"), ("<1>", "/bits/ 24 <1>"), ("<1>", "(1)"),
                     ("= <1>", ": <1>"), ("<1>", "< /include/ \"none.dtsi\" >"), ("<1>", "<0x1ffffffff>"), ("<1>", "1")):
        board, soc, _ = BOARDS["imx8mm"]
        yield changed(linux, f"slip: {new}", board, soc, r"= <1>;", lambda it, old=old, new=new: it.replace(old, new), 3)

    for i, (kind, text, wanted) in enumerate((
            ("overlay: delete", "&zz {\n\t/delete-property/ status;\n};", [1]), ("overlay: delete a node", "&zz {\n\t/delete-node/ port;\n};", [1]),
            ("overlay: phandle", "&zz {\n\tphandle = <1>;\n};", [0, 1]), ("overlay: phandle in a child", "&zz {\n\tx {\n\t\tphandle = <1>;\n\t};\n};", [0, 1, 2]),
            ("overlay: path", "&zz {\n\tx = <&{/soc}>;\n};", [1]), ("overlay: no cell", "&zz {\n\tx = &zz;\n};", [1]),
            ("overlay: no target", "/ {\n\tfragment@77 {\n\t\t__overlay__ {\n\t\t};\n\t};\n};", [0, 1, 2]),
            ("overlay: outside", "/ {\n\tzz_out: zz-out {\n\t};\n};\n&zz {\n\tx = <&zz_out>;\n};", [5]),
            ("overlay: symbols", "/ {\n\t__symbols__ {\n\t\tx = \"/y\";\n\t};\n};", [1]))):
        yield added(linux, kind, OVERLAYS[i % 3], text, wanted)
    yield added(linux, "overlay: reserve", OVERLAYS[0], "/memreserve/ 0x1000 0x1000;", [0], begin=True)

    board = BOARDS["imx8mm"][0]
    yield added(linux, "none", board, "/ {\n\tzz {\n\t};\n};", [])
    yield added(linux, "none", board, "/* a comment */", [])
    yield added(linux, "none", board, "#if 0\n/ { a a };\n#endif", [])


def run(*command):
    done = subprocess.run(command, stdout=subprocess.PIPE, stderr=subprocess.STDOUT, text=True)
    return done.returncode, done.stdout


def places(told):
    """The files and lines of faults, notes and warnings, as either tool writes them."""
    return [(os.path.relpath(os.path.realpath(file)), int(line)) for file, line in re.findall(r"(?:^|: )([^\s:]+\.(?:dtsi?|dtso)):(\d+)[.:]\d+", told, re.M)]


def main():
    tool, linux, verbose = os.path.abspath(sys.argv[1]), os.path.abspath(sys.argv[2]), "-v" in sys.argv
    os.environ["DTOOL"] = tool
    tools = os.path.join(os.path.dirname(os.path.abspath(__file__)), "../tools")
    os.chdir(linux)
    found, all_of, lost = Counter(), Counter(), 0
    with tempfile.TemporaryDirectory() as folder:
        for it in mistakes(linux):
            kept = open(it.file).read()
            source = os.path.join(folder, "board.i")
            try:
                with open(it.file, "w") as file:
                    file.write("\n".join(it.lines))
                run("gcc", "-E", "-nostdinc", "-undef", "-D__DTS__", "-x", "assembler-with-cpp", "-I", "scripts/dtc/include-prefixes", it.board, "-o", source)
                folder_of = os.path.dirname(it.board)
                status, told = run(os.path.join(tools, "dtc"), "-@", "-I", "dts", "-O", "dtb", "-i", folder_of, "-o", os.path.join(folder, "out"), source)
                _, asked = run(os.path.join(tools, "where"), "-i", folder_of, source)
                theirs = places(run("dtc", "-q", "-@", "-I", "dts", "-O", "dtb", "-i", folder_of, "-o", "/dev/null", source)[1])
            finally:
                with open(it.file, "w") as file:
                    file.write(kept)
            wanted = {(it.file, line + 1) for line in it.wanted}
            name = it.kind.split(":")[0]
            all_of[name] += 1
            by_dtc = name != "none" and wanted & set(places(told)) or theirs and places(told)[:1] == theirs[:1]
            by_where = wanted & set(places(asked)) or theirs and places(asked)[:1] == theirs[:1] or status == 0
            is_found = status == 0 if name == "none" else by_dtc and by_where
            found[name] += bool(is_found)
            if verbose or not is_found:
                print(f"--- {it.kind}, {it.file}: {sorted(line for _, line in wanted)}; dtc {theirs[:1]}\n{told}", end="")
                if not by_where:
                    print(f"where: {asked}", end="")
    for name, count in all_of.items():
        print(f"{found[name]:3} of {count:3}  {name}")
    print(f"{sum(found.values())} of {sum(all_of.values())}")


if __name__ == "__main__":
    main()

"""The conventions of the command line, --json, and the completion for bash."""
import json
import os
import re
import subprocess

from common import BAD, GOOD, ROOT, expect, expect_wrong, run

COMPLETION = ROOT / "share" / "bash-completion" / "completions" / "puchkewa"
# return rax; a push button's sum: rax + 5
SUM = b"\x02\x01\x13\x06\x00return\x16\x01\x00 \x11\x03\x00rax\x16\x03\x00 + \x12\x01\x005\x16\x01\x00;\xff"
# A call, whose result is cut, and a line by which the convention is told: on Windows rdi is kept by a call.
CALLS = b"\x02\x00\x11\x03\x00rdi\x16\x03\x00 = \x12\x01\x001\x16\x01\x00;\x02\x00\x14\x01\x00f\x16\x03\x00();\x02\x00\x13\x06\x00return\x16\x01\x00 \x11\x03\x00rdi\x16\x01\x00;\xff"


def try_conventions(folder):
    """-- ends the options; a value may stand in its option's word; -V is version."""
    (folder / "-x.tape").write_bytes(GOOD)
    (folder / "-c").write_bytes(b"\x02\x05\xff")
    (folder / "--").write_bytes(b"\x02\x06\xff")
    sum_tape, calls = folder / "sum.tape", folder / "calls.tape"
    sum_tape.write_bytes(SUM)
    calls.write_bytes(CALLS)
    for words, data in ((("clean", "--", "-x.tape"), GOOD), (("clean", "--", "-c"), b"\x02\x05\xff"), (("clean", "--", "--"), b"\x02\x06\xff"), (("clean", "-c", "32", "--", "-x.tape"), GOOD),
                        (("clean", "-q", "--", "-x.tape", "-c"), GOOD + b"\x02\x05\xff")):
        expect(run(*words, cwd=folder) == (0, data, ""), words, run(*words, cwd=folder))
    expect(run("clean", "--", "-", data=GOOD) == (0, GOOD, ""), "- behind -- is standard input")
    expect(run("clean", "-o", "--", "-x.tape", cwd=folder)[0] == 2, "-- behind -o is its value")
    for value in ("10", "0xa", "-1", "-0x10"):
        apart, together = run("start", "--return", value, "--choose", "rax", sum_tape), run("start", f"--return={value}", "--choose=rax", sum_tape)
        expect(apart == together and apart[0] == 0, value, apart, together)
    expect(run("start", "--return=10", "--choose=rax", sum_tape)[1].startswith(b"rax = 0x5 (5)\n"), run("start", "--return=10", "--choose=rax", sum_tape))
    results = {}
    for value in ("32", "sysv", "windows"):
        apart, together = run("clean", "-c", value, calls), run("clean", f"-c{value}", calls)
        expect(apart == together and apart[0] == 0, value, apart, together)
        results[value] = apart[1]
    expect(results["sysv"] != results["windows"], "the conventions of this trial cannot be told apart", results)
    expect(run("clean", "-e2024", calls) == run("clean", "-e", "2024", calls) and run("clean", "-e2024", calls)[0] == 0, "-e2024")
    for words, plain in ((("-erust",), ()), (("-e", "0"), ()), (("-e1",), ("-e", "2024"))):
        expect(run("clean", *words, calls) == run("clean", *plain, calls), words)
    status, out, told = run("clean", "-e", "2018", calls)
    expect((status, out) == run("clean", calls)[:2] and told.startswith("puchkewa: -e 2018 is -e rust now") and run("clean", "-q", "-e2018", calls)[2] == "", told)
    (folder / "out").mkdir()
    for words, path in ((("-oout/y",), "out/y"), (("-dout",), "out/sum.tape")):
        expect(run("clean", "sum.tape", *words, cwd=folder) == (0, b"", "") and (folder / path).read_bytes() == run("clean", sum_tape)[1], words)
    for words, what in ((("clean", "-cx"), "x is no value"), (("clean", "-c"), "missing"), (("clean", "-e2020"), "no value"), (("start", "--return=", "--choose=rax"), "no value"),
                        (("start", "--returns=1"), "no option"),
                        (("clean", "--exact"), "no option"), (("clean", "-x"), "no option"), (("check", "-f"), "no option"), (("version", "x"), "too many")):
        expect_wrong(words, what)


def try_json(folder):
    """--json of counts, check and start (of cautions: cautioned.py): one object a line, with what the line of words says; a refusal too, which is told as ever."""
    names = ("calls.tape", "a \"b\" \\ \x01.tape", "sum.tape")
    files = [folder / name for name in names]
    for file, tape in zip(files, (CALLS, GOOD, SUM)):
        file.write_bytes(tape)
    bad = folder / "bad.tape"
    bad.write_bytes(BAD)

    def objects(*words, data=b""):
        status, printed, told = run(*words, data=data)
        expect(printed.endswith(b"\n"), words, printed)
        lines = printed.decode("ascii").split("\n")[:-1]
        return status, [json.loads(line, object_pairs_hook=lambda pairs: pairs) for line in lines], told

    status, found, told = objects("counts", "--json", "-q", *files, bad)
    plain = run("counts", "-q", *files, bad)
    expect(status == plain[0] == 1 and told == plain[2], "what is told", told, plain[2])
    for file, pairs, line in zip(files, found, plain[1].decode().split("\n")):
        length, *attempts, removed, cut, cautioned = map(int, re.findall(r"\d+", line[len(str(file)):]))
        expect(pairs == [("file", str(file)), ("length", length), ("settled", False), ("attempts", attempts), ("removed", removed), ("cut", cut), ("cautioned", cautioned)], pairs, line)
    refused = dict(found[-1])
    words = re.match(r".*: refused 4 at 0: (.*)\n", told).group(1)
    expect(list(refused) == ["file", "refused", "place", "words"] and list(refused.values()) == [str(bad), 4, 0, words], refused, told)
    status, found, told = objects("counts", "--json", "--settle", "-q", *files)
    for file, pairs, line in zip(files, found, run("counts", "--settle", "-q", *files)[1].decode().split("\n")):
        length, rounds, attempts, removed, cut, cautioned = map(int, re.findall(r"\d+", line[len(str(file)):]))
        expect(pairs == [("file", str(file)), ("length", length), ("settled", True), ("rounds", rounds), ("attempts", attempts), ("removed", removed), ("cut", cut),
                         ("cautioned", cautioned)], pairs, line)
    status, found, told = objects("check", "--json", "-q", *files, bad)
    for file, pairs, counts in zip(files, found, ((3, 10, 23), (1, 0, 0), (1, 6, 15))):
        expect(pairs == [("file", str(file)), ("accepted", True), *zip(("lines", "tokens", "text"), counts)], pairs)
    expect(status == 1 and dict(found[-1])["refused"] == 4, found[-1])
    status, found, told = objects("start", "--json", "--return=10", "--choose=rax", files[2])
    expect((status, told) == (0, "") and found[0][:4] == [("file", str(files[2])), ("register", "rax"), ("value", "0x5"), ("decimal", "5")], found)
    status, found, told = objects("check", "--json", data=GOOD)
    expect(status == 0 and found[0][0] == ("file", "-"), found)
    expect_wrong(("clean", "--json", files[0]), "no option")


def completed(*words, cwd=ROOT):
    """What bash offers for the last of these words."""
    script = '. "$0"; COMP_WORDS=("$@"); COMP_CWORD=$(($# - 1)); _puchkewa 2> /dev/null; printf "%s\\n" "${COMPREPLY[@]}"'
    done = subprocess.run(["bash", "--norc", "-c", script, str(COMPLETION), *words], capture_output=True, cwd=cwd, env={**os.environ, "LC_ALL": "C"})
    expect(done.returncode == 0, words, done)
    return [word for word in done.stdout.decode().split("\n") if word]


def try_completion(folder):
    """The words that bash offers are those of the help; each option that it offers is one of that word, and none of its options is missing."""
    listed = list(dict.fromkeys(re.findall(r"^  ([a-z]+)\b", run("help")[1].decode(), re.M)))
    offered = completed("puchkewa", "")
    expect(sorted(offered) == sorted(listed + ["--help", "--version"]) and sorted(completed("puchkewa", "help", "")) == sorted(listed), offered, listed)
    every = sorted({option for verb in listed for option in completed("puchkewa", verb, "-")})
    expect(len(every) > 12, every)
    room, here = folder / "room", folder / "here"
    room.mkdir()
    for verb in listed:
        for option in every:
            is_option = option == "--help" or f"{option} is no option here" not in run(verb, option, "x", cwd=room)[2]
            expect(is_option == (option in completed("puchkewa", verb, "-")), verb, option, "is offered" if not is_option else "is not offered")
    (here / "a folder").mkdir(parents=True)
    (here / "x.tape").write_bytes(GOOD)
    for words, right in ((("c",), ["clean", "counts", "cautions", "check"]), (("clean", "-c", ""), ["32", "sysv", "windows"]), (("clean", "-cw"), ["-cwindows"]), (("clean", "-e", ""), ["rust", "2024"]),
                         (("edition", ""), ["2018", "2024"]), (("edition", "2018", ""), ["a folder", "x.tape"]), (("state", "x.tape", ""), ["list", "save", "get", "delete"]),
                         (("clean", "x"), ["x.tape"]),
                         (("clean", "-d", ""), ["a folder"]), (("clean", "-o", "x"), ["x.tape"]), (("clean", "--", "-"), []), (("clean", "--pa"), ["--parts"]), (("cautions", "--j"), ["--json"])):
        expect(sorted(completed("puchkewa", *words, cwd=here)) == sorted(right), words, completed("puchkewa", *words, cwd=here))

"""The completions and the man pages have just the commands and options that `--help` lists."""

import os
import re
import shutil
import signal
import subprocess
import unittest

from harness import COMMAND, ENGINE, IS_DOUBLE, SERVER, TOP, needs_programs

COMPLETIONS = os.path.join(TOP, "release", "completions")
PAGES = os.path.join(TOP, "docs", "man")
OPTION = re.compile(r"(?<![\w-])--?[A-Za-z][\w-]*")


def read(*names):
    with open(os.path.join(*names), encoding="utf-8") as file:
        return file.read()


def help_of(*words):
    return subprocess.run([*words, "--help"], capture_output=True, text=True, check=True).stdout


def options_of(text):
    """Those at the left of the lines of options."""
    lefts = (re.split(r"  +", line.strip())[0] for line in text.splitlines() if re.match(r" +--?\w", line))
    return {option for left in lefts for option in OPTION.findall(left)}


def valued(text):
    """Those of them that have a value: a word in capitals."""
    lefts = (re.split(r"  +", line.strip())[0] for line in text.splitlines() if re.match(r" +--?\w", line))
    return {option for left in lefts if re.search(r" [A-Z]", left) for option in OPTION.findall(left)}


def ring_tool():
    """By command, and for no command: the program's help, or, where only the engine's double is there, that which the gate compares
    with the program's."""
    if not IS_DOUBLE:
        whole = help_of(ENGINE)
        return {"": whole, **{name: help_of(ENGINE, name) for name in commands_of(whole) - {"help"}}}
    text = "".join(read(TOP, "tests", "rows", f"{name}.out") for name in ("words", "holds"))
    helps = {name: body for name, body in re.findall(r"^[$>](\w+)\|--help\n(.*?)^status 0$", text, re.MULTILINE | re.DOTALL)}
    helps[""] = re.search(r"^%--help\n(.*?)^status 0$", text, re.MULTILINE | re.DOTALL)[1]
    return helps


def commands_of(text):
    return set(re.findall(r"^  (\w+) +\w", text.split("Commands:\n")[1].split("\n\n")[0], re.MULTILINE))


def bash(program, *words):
    """What bash offers for the last word."""
    script = (f'source "{COMPLETIONS}/bash/{program}"; COMP_WORDS=("$@"); COMP_CWORD=$(($# - 1)); '
              f'_{program.replace("-", "_")}; printf "%s\\n" "${{COMPREPLY[@]}}"')
    return offered(["bash", "--norc", "-c", script, "bash", program, *words])


def fish(program, *words):
    line = " ".join([program, *words])
    script = f"set fish_complete_path; source {COMPLETIONS}/fish/{program}.fish; complete -C '{line}'"
    return offered(["fish", "--no-config", "-c", script])


def zsh(program, *words):
    """What the file tells zsh, word by word: the calls by which it does are replaced by prints."""
    script = ("_arguments() { print -rl -- $@ }; _values() { shift; print -rl -- $@ }; _describe() { print -rl -- ${(P)2} }; "
              f'words=("$@"); CURRENT=$#; source {COMPLETIONS}/zsh/_{program}')
    lines = offered(["zsh", "-f", "-c", script, "zsh", program, *words])
    found = set()
    for line in lines:
        found |= set(re.findall(r"^(?:\([^)]*\)|\*)?(--?[A-Za-z][\w-]*)(?=\[)", line)) | set(re.findall(r"^(\w+)[\[:]", line))
    return found


def takes_value(shell, program, *words):
    """Whether the shell takes what follows the last of these words, an option, for its value. bash then offers no options; fish always
    does, and is asked for its own words of the option."""
    *words, option = words
    if shell is bash:
        return not options_only(bash(program, *words, option, "-"))
    if shell is fish:
        name = f"-l {option[2:]}" if option.startswith("--") else f"-s {option[1:]}"
        return bool(re.search(rf"^complete .*{name} .*-(x|rF) ", read(COMPLETIONS, "fish", f"{program}.fish"), re.MULTILINE))
    script = f'_arguments() {{ print -rl -- $@ }}; _values() {{ }}; words=("$@"); CURRENT=$#; source {COMPLETIONS}/zsh/_{program}'
    it = subprocess.run(["zsh", "-f", "-c", script, "zsh", program, *words, "-"], capture_output=True, text=True, timeout=60, check=True)
    return bool(re.search(rf"^(?:\([^)]*\)|\*)?{option}=?-?\+?\[[^]]*\]:", it.stdout, re.MULTILINE))


def offered(words):
    it = subprocess.run(words, capture_output=True, text=True, timeout=60, check=True)
    return {line.split("\t")[0] for line in it.stdout.splitlines() if line} - {"--"}


def shells(test):
    """Those that are installed. Without any the test is skipped."""
    found = [shell for shell in (bash, fish, zsh) if shutil.which(shell.__name__)]
    if not found:
        test.skipTest("neither bash nor fish nor zsh is installed")
    return found


def each_shell(test):
    def run(self):
        for shell in shells(self):
            with self.subTest(shell=shell.__name__):
                test(self, lambda program, *words, shell=shell: offers(shell, program, *words))
    return run


def each_program(shell):
    """For each option of our programs in this shell: whether it is taken for one with a value, and whether the help has one."""
    text = help_of(SERVER)
    yield from ((f"wozgirt-server {it}", takes_value(shell, "wozgirt-server", it), it in valued(text))
                for it in sorted(options_of(text) - {"--help", "--version"}))
    text = help_of(COMMAND)
    for command in re.findall(r"^wozgirt (\w+)", text, re.MULTILINE):
        yield from ((f"wozgirt {command} {it}", takes_value(shell, "wozgirt", command, it), it in valued(text))
                    for it in sorted(options_only(offers(shell, "wozgirt", command, ""))))


def offers(shell, program, *words):
    """Of options also what is offered behind `-` and `--`: fish shows them only there."""
    if words[-1]:
        return shell(program, *words)
    return shell(program, *words[:-1], "") | shell(program, *words[:-1], "-") | shell(program, *words[:-1], "--")


@needs_programs
class Completions(unittest.TestCase):
    @each_shell
    def test_server(self, offers):
        self.assertEqual(offers("wozgirt-server", ""), options_of(help_of(SERVER)) | {"--journal", "--locks"})

    @each_shell
    def test_command(self, offers):
        text = help_of(COMMAND)
        commands = set(re.findall(r"^wozgirt (\w+)", text, re.MULTILINE))
        self.assertEqual(offers("wozgirt", ""), commands | {"--help", "--version"})
        own = {command: options_only(offers("wozgirt", command, "")) for command in commands}
        self.assertEqual(set().union(*own.values()) | {"--help", "--version"}, options_of(text))
        looks = {"--socket", "--server-wait"}
        self.assertEqual((own["try"], own["status"], own["bench"], own["watch"], own["admin"]),
                         (own["lock"], looks | {"--json"}, {"--socket"}, looks | {"--every", "--json"}, {"--operators"}))
        orders = re.findall(r"^    (\w+)(?: [A-Z]+)*  +\w", text.split("\nwozgirt admin ")[1].split("\n\n")[0], re.MULTILINE)
        self.assertEqual(offers("wozgirt", "admin", "") - {"--operators"}, set(orders))
        page = read(PAGES, "wozgirt.1").split(".Sh OPERATORS")[1].split(".Sh ")[0]
        self.assertEqual(re.findall(r"^\.It Cm (\w+)", page, re.MULTILINE), orders)

    @each_shell
    def test_where_the_command_takes_them(self, offers):
        text = help_of(COMMAND)
        for command in re.findall(r"^wozgirt (\w+)", text, re.MULTILINE):
            taken = {it for it in options_of(text) - {"--help", "--version"} if is_taken(command, it)}
            self.assertEqual(options_only(offers("wozgirt", command, "")), taken, command)

    def test_values(self):
        for shell in shells(self):
            each = list(each_program(shell))
            self.assertGreater(len(each), 30)
            for words, is_taken, is_valued in each:
                self.assertEqual(is_taken, is_valued, f"{shell.__name__}: {words}")

    @each_shell
    def test_ring_tool(self, offers):
        helps = ring_tool()
        commands = commands_of(helps[""])
        self.assertEqual(offers("ring_tool", ""), commands | options_of(helps[""]))
        self.assertEqual(set(helps) - {""}, commands - {"help"})
        for command in commands - {"help"}:
            self.assertEqual(options_only(offers("ring_tool", command, "")), options_of(helps[command]), command)


def is_taken(command, option):
    """Whether `wozgirt COMMAND` takes this option: what it says then is that something else is wrong."""
    it = subprocess.run([COMMAND, command, option, "a", "--none"], capture_output=True, text=True, timeout=60, check=False)
    assert it.returncode == 64, it
    return f"`{option}` has no place here" not in it.stderr


def options_only(words):
    return {word for word in words if word.startswith("-")}


@needs_programs
class ManPages(unittest.TestCase):
    def options(self, page):
        return {option.replace("Fl Fl ", "--").replace("Fl ", "-")
                for line in read(PAGES, page).splitlines() if line.startswith(".It Fl")
                for option in re.findall(r"Fl Fl [\w-]+|Fl [A-Za-z]\b", line)}

    def test_options(self):
        self.assertEqual(self.options("wozgirt.1"), options_of(help_of(COMMAND)))
        self.assertEqual(self.options("wozgirt-server.8"), options_of(help_of(SERVER)) | {"--journal", "--locks"})
        log = help_of(os.path.join(TOP, "clients", "python", "wozgirt-log"))
        self.assertEqual(self.options("wozgirt-log.8"), options_of(log) - {"-h", "--help"})
        helps = ring_tool()
        self.assertEqual(self.options("ring_tool.1"), set().union(*map(options_of, helps.values())))
        commands = commands_of(helps[""]) - {"help"}
        self.assertEqual(set(re.findall(r"^\.Ss (\w+)$", read(PAGES, "ring_tool.1"), re.MULTILINE)), commands)

    def declared(self, header):
        """The functions of a header, each with its parameters."""
        found = re.findall(r"^(?:static inline )?[\w ]+ \*?(wozgirt_\w+)\(([^)]*)\)", read(TOP, "clients", "c", header), re.MULTILINE)
        return {(name, ", ".join(it.strip() for it in " ".join(words.split()).split(","))) for name, words in found}

    def test_functions(self):
        lines = re.findall(r"^\.Fn (\w+) (\".*\"|void)$", read(PAGES, "libwozgirt.3"), re.MULTILINE)
        page = {(name, words[1:-1].replace('" "', ", ") if words != "void" else words) for name, words in lines}
        waits = {it for it in page if it[0].startswith("wozgirt_wait_")}
        self.assertEqual(page - waits, self.declared("wozgirt.h"))
        self.assertLessEqual(waits, self.declared("wozgirt_wait.h"))
        self.assertEqual(len(waits), 6)

    def test_they_are_laid_out_without_a_warning(self):
        readers = (["mandoc", "-T", "lint", "-W", "warning"], ["man", "--warnings", "-P", "cat", "-l"])
        found = [words for words in readers if shutil.which(words[0])]
        if not found:
            self.skipTest("neither mandoc nor man is installed")
        for page in os.listdir(PAGES):
            for words in found:
                words = [*words, os.path.join(PAGES, page)]
                it = subprocess.run(words, capture_output=True, text=True, timeout=60, check=False)
                self.assertEqual((it.stderr, it.stdout if words[0] == "mandoc" else ""), ("", ""), page)


@needs_programs
class Printing(unittest.TestCase):
    """Of a program whose help or version finds no reader, or no room."""

    def printed_to(self, program, word, output):
        it = subprocess.run([program, word], stdout=output, stderr=subprocess.PIPE, text=True, timeout=60, check=False)
        return it.returncode, it.stderr

    def test_nobody_reads(self):
        for program, word in ((SERVER, "--help"), (SERVER, "--version"), (COMMAND, "--help")):
            with self.subTest(program=os.path.basename(program), word=word):
                reads, writes = os.pipe()
                os.close(reads)
                self.assertEqual(self.printed_to(program, word, writes), (-signal.SIGPIPE, ""))
                os.close(writes)

    @unittest.skipUnless(os.path.exists("/dev/full"), "no /dev/full")
    def test_no_room(self):
        for program, word in ((SERVER, "--help"), (SERVER, "--version"), (COMMAND, "--help")):
            name = os.path.basename(program)
            with self.subTest(program=name, word=word), open("/dev/full", "wb") as full:
                self.assertEqual(self.printed_to(program, word, full), (1, f"{name}: standard output: No space left on device (os error 28)\n"))


if __name__ == "__main__":
    unittest.main()

"""The numbers, structs and functions that `system/src/calls/declarations.rs` declares are those of the system's headers: the same declarations
in C, beside the headers, do not compile if one differs."""

import os
import re
import shutil
import subprocess
import tempfile
import unittest

from harness import TOP

CALLS = os.path.join(TOP, "server", "system", "src", "calls", "declarations.rs")
COMPILER = shutil.which("cc")
HEADERS = ("errno", "fcntl", "grp", "poll", "pthread", "pwd", "signal", "stddef", "stdint", "sys/epoll", "sys/file", "sys/resource", "sys/signalfd",
           "sys/socket", "sys/stat", "sys/statvfs", "sys/un", "unistd")
PREFACE = """\
#ifdef __GLIBC__
typedef unsigned long BlockCount;
typedef unsigned long LimitCount;
typedef __rlimit_resource_t Resource;
#else
typedef uint64_t BlockCount;
typedef uint64_t LimitCount;
typedef int Resource;
#endif
#ifdef __x86_64__
#define PACKED_ON_X86_64 __attribute__((packed))
#else
#define PACKED_ON_X86_64
#endif
#define MEMBER(OURS, THEIRS, MEMBER, THEIR_MEMBER) \\
    _Static_assert(offsetof(OURS, MEMBER) == offsetof(THEIRS, THEIR_MEMBER), #THEIRS "." #MEMBER); \\
    _Static_assert(sizeof((OURS *)0)->MEMBER == sizeof((THEIRS *)0)->THEIR_MEMBER, #THEIRS "." #MEMBER)
"""
#: the types of Rust, as C has them
TYPES = {"c_char": "char", "c_long": "long", "c_ulong": "unsigned long", "c_void": "void", "i16": "short", "i32": "int",
         "u16": "unsigned short", "u32": "unsigned", "u64": "uint64_t", "usize": "size_t", "LimitCount": "LimitCount",
         "BlockCount": "BlockCount"}
#: functions whose types in C say more: a handler, an address of any family, a list of names
SPECIAL = {"signal": "void (*(*ours_signal)(int, void (*)(int)))(int)",
           "connect": "int (*ours_connect)(int, const struct sockaddr *, socklen_t)",
           "getrlimit": "int (*ours_getrlimit)(Resource, struct rlimit *)",
           "setrlimit": "int (*ours_setrlimit)(Resource, const struct rlimit *)"}
#: a member that is room for all others of the system's struct
ROOM_FOR_MORE = "rest"
#: wrong declarations
CHANGES = {"SOCK_STREAM: i32 = 1;": "SOCK_STREAM: i32 = 2;", "SIG_ERR: usize = usize::MAX": "SIG_ERR: usize = 1",
           "pub uid: u32,": "pub uid: u16,", "pub pid: i32,\n    pub uid: u32,": "pub uid: u32,\n    pub pid: i32,",
           "[c_char; 108],": "[c_char; 100],", "[c_ulong; 1024 /": "[c_ulong; 512 /", "    pub data: u64,\n": "",
           "fn kill(process: i32, signal: i32)": "fn kill(process: i32)", "command: i32, ...)": "command: i32)",
           "fn flock(file: i32, operation: i32)": "fn flock(file: i32, operation: c_long)",
           "    pub f_frsize: c_ulong,\n": "", "rest: [c_ulong; 32]": "rest: [c_ulong; 2]",
           "    pub pw_uid: u32,\n": "", "gr_mem: *mut *mut c_char": "gr_mem: u32", "fn getpwuid_r(user: u32": "fn getpwuid_r(user: u64"}


def read():
    with open(CALLS, encoding="utf-8") as file:
        return file.read()


def numbers(text):
    return re.findall(r"^(?:pub )?const (\w+): (\w+) = ([^;]+);", text, re.MULTILINE)


def structs(text):
    """What the system calls each, its name, and its members with their types."""
    found = re.findall(r"/// `([\w ]+)`[^\n]*\n(?:#\[[^\n]*\n)+(?:pub )?struct (\w+) \{\n(.*?)\n\}", text, re.DOTALL)
    return [(theirs, ours, re.findall(r"^    (?:pub )?(\w+): (.*),$", body, re.MULTILINE)) for theirs, ours, body in found]


def functions(text):
    block = re.search(r'^extern "C" \{\n(.*?)^\}', text, re.MULTILINE | re.DOTALL)[1]
    # a declaration that is too long for one line goes over several
    block = re.sub(r"\n {8}(?=->)", " ", re.sub(r",\n {4}\)", ")", block))
    block = re.sub(r",\n {8}", ", ", re.sub(r"\(\n {8}", "(", block))
    return block.splitlines(), re.findall(r"^    pub fn (\w+)\((.*)\) -> (\w+);$", block, re.MULTILINE)


def type_in_c(it, systems):
    pointer = re.fullmatch(r"\*(mut|const) (.+)", it)
    if pointer:
        return f"{'const ' if pointer[1] == 'const' else ''}{type_in_c(pointer[2], systems)} *"
    return it if it == "..." else systems.get(it) or TYPES[it]


def member_in_c(name, it):
    array = re.fullmatch(r"\[(\w+); (.*)\]", it)
    if not array:
        return f"{type_in_c(it, {})} {name};"
    return f"{TYPES[array[1]]} {name}[{array[2].replace('c_ulong::BITS as usize', '(8 * sizeof(long))')}];"


def number_in_c(name, kind, value):
    value = value.replace("_", "").replace("0o", "0")
    if kind == "usize":  # an address in C, which `_Static_assert` does not take
        return f"int ours_{name} = 1 / ((uintptr_t){name} == {value.replace('usize::MAX', 'UINTPTR_MAX')});"
    return f'_Static_assert({name} == {value}, "{name}");'


def struct_in_c(theirs, ours, members):
    packed = " PACKED_ON_X86_64" if theirs == "struct epoll_event" else ""
    yield f"struct {ours} {{ {' '.join(member_in_c(*it) for it in members)} }}{packed};"
    relation = ">=" if ROOM_FOR_MORE in dict(members) else "=="
    yield f'_Static_assert(sizeof(struct {ours}) {relation} sizeof({theirs}), "{theirs}");'
    if theirs.startswith("struct "):  # of others the members have no names
        for name in dict(members).keys() - {ROOM_FOR_MORE}:
            yield f"MEMBER(struct {ours}, {theirs}, {name}, {'data.u64' if name == 'data' else name});"


def function_in_c(name, parameters, result, systems):
    if name in SPECIAL:
        return f"{SPECIAL[name]} = {name};"
    types = ", ".join(type_in_c(it.split(": ")[-1], systems) for it in parameters.split(", "))
    return f"{TYPES[result]} (*ours_{name})({types}) = {name};"


def in_c(text):
    systems = {ours: theirs for theirs, ours, _ in structs(text)}
    lines = ["#define _GNU_SOURCE", *(f"#include <{it}.h>" for it in HEADERS), PREFACE]
    lines += [number_in_c(*it) for it in numbers(text)]
    lines += [line for it in structs(text) for line in struct_in_c(*it)]
    lines += [function_in_c(*it, systems) for it in functions(text)[1]]
    return "\n".join(lines) + "\n"


def faults(text):
    """What the compiler says."""
    with tempfile.TemporaryDirectory() as folder:
        path = os.path.join(folder, "declared.c")
        with open(path, "w", encoding="ascii") as file:
            file.write(in_c(text))
        words = [COMPILER, "-std=c11", "-fsyntax-only", "-Werror", path]
        it = subprocess.run(words, capture_output=True, text=True, timeout=60, check=False)
    return it.stderr if it.returncode else ""


class Declarations(unittest.TestCase):
    maxDiff = None

    def test_none_is_passed_over(self):
        text = read()
        self.assertEqual(len(numbers(text)), len(re.findall(r"^(?:pub )?const ", text, re.MULTILINE)))
        self.assertEqual(len(structs(text)), len(re.findall(r"^(?:pub )?struct (?!UnixAddress )", text, re.MULTILINE)))
        lines, found = functions(text)
        self.assertEqual((len(found), len(re.findall(r'^extern "C" {$', text, re.MULTILINE))), (len(lines), 1))

    @unittest.skipUnless(COMPILER, "there is no C compiler")
    def test_they_are_the_systems(self):
        text = read()
        self.assertEqual(faults(text), "")
        for was, becomes in CHANGES.items():
            with self.subTest(was=was):
                self.assertIn(was, text)
                self.assertNotEqual(faults(text.replace(was, becomes, 1)), "")


if __name__ == "__main__":
    unittest.main()

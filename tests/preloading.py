"""Libraries that are loaded before the C library, and whether a program calls that library as they expect.

A program that calls the system past the C library, or one of its functions that isn't known here, would do so behind the back of
such a library: then what a script sees is worth nothing, so it says so and fails.
"""
import os
import re
import subprocess

TOP = os.path.dirname(os.path.dirname(os.path.realpath(__file__)))
PROGRAM = os.path.abspath(os.environ.get("RSP") or f"{TOP}/crates/rsp_main/out/rsp_main")
# the functions that the libraries stand before: what takes memory, and what reads, writes, opens and looks at files
TAKES_MEMORY = {"malloc", "realloc"}
OF_FILES = {"read", "write", "open", "statx"}
# what the program calls beside these, none of which takes memory for it, or reads or writes a byte of its input and output
OTHERS = {
    # copies in memory, and gives memory back
    "memcpy", "memmove", "memset", "free",
    # of files: their end, and where standard input stands
    "close", "lseek",
    # before `main`, and behind it
    "__libc_start_main", "__gmon_start__", "__cxa_finalize", "_ITM_registerTMCloneTable", "_ITM_deregisterTMCloneTable",
    # at the front of `main`: SIGPIPE is ignored, and the processor is asked what it can; where that is too little, `__write` says
    # so to standard error, and nothing else is done
    "__sysv_signal", "__x86_get_cpuid_feature_leaf", "__write",
    "__errno_location",
}


def library(source, room):
    """The library of a C file of this folder, compiled into a folder."""
    path = f"{room}/{source}.so"
    compiler = os.environ.get("CC", "cc")
    subprocess.run([compiler, "-shared", "-fPIC", "-O1", "-o", path, f"{TOP}/tests/{source}.c"], check=True)
    return path


def output_of(*command):
    return subprocess.run(command, stdout=subprocess.PIPE, check=True).stdout.decode()


def called(program):
    """The functions of libraries that the program calls."""
    rows = (line.split() for line in output_of("readelf", "--dyn-syms", "--wide", program).splitlines())
    return {row[7].split("@")[0] for row in rows if len(row) > 7 and row[6] == "UND"}


def libraries(program):
    return set(re.findall(r"\(NEEDED\).*\[(.*)\]", output_of("readelf", "--dynamic", "--wide", program)))


def system_calls(program):
    """How often the program's own code calls the system itself."""
    return len(re.findall(r"\t(?:syscall|sysenter|int +\$0x80)\s*$", output_of("objdump", "-d", program), re.M))


def checks(program):
    """Each check as its name and what it found wrong."""
    stood_before, names = TAKES_MEMORY | OF_FILES, called(program)
    others, missing = sorted(names - stood_before - OTHERS), sorted(stood_before - names)
    yield "each function that the program calls is known", f"not so {others}" if others else None
    yield "each function that a library stands before is called", f"not so {missing}" if missing else None
    needed = sorted(libraries(program) - {"libc.so.6"})
    yield "the program stands on the C library alone", f"and on {needed}" if needed else None
    count = system_calls(program)
    yield "the program calls the system by the C library alone", f"{count} calls go past it" if count else None

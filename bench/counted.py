"""What the commands of bench/ share: the instructions of the program's runs, counted by callgrind. Counts are of the
program and the C library, and don't depend on the load of the machine."""
import os
import re
import subprocess

HERE = os.path.dirname(os.path.abspath(__file__))
TOP = os.path.dirname(HERE)


def program(words):
    """The program that a command is given, or else the one of these sources."""
    if words:
        return os.path.abspath(words[0])
    path = subprocess.run([f"{TOP}/scripts/program_path"], check=True, stdout=subprocess.PIPE, text=True).stdout
    return os.path.join(TOP, path.strip())


def counted(command, keys="", folder=None):
    """The instructions of a command over these keys, and what it wrote."""
    full = ["valgrind", "--tool=callgrind", "--callgrind-out-file=/dev/null"] + command
    ran = subprocess.run(full, input=keys, text=True, check=True, capture_output=True, cwd=folder)
    return int(re.search(r"Collected : (\d+)", ran.stderr).group(1)), ran


def one_more(count, few, many):
    """What one of a kind takes, by the counts of runs that have few and many of it."""
    return (count(many) - count(few)) / (many - few)

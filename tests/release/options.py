#!/usr/bin/env python3
"""Compares the man pages and the completions of ymx with its help, both ways: commands, options, which of them take a
value, and, in the man pages, the names of the values and what is taken where an option is left out.

    options.py PROGRAM      by the help that the program prints
    options.py FOLDER       by texts in the files help, local_help, ..., as tests/program has them

An old word for an option stands in the man page of its command alone, as `is an old word for`. The program still takes it.
"""
import os
import re
import shutil
import subprocess
import sys

SHARE = os.path.join(os.path.dirname(os.path.abspath(__file__)), "../../release/share")
# what prints no help of its own
NO_HELP = "help"
faults = []


def text(name):
    with open(os.path.join(SHARE, name)) as file:
        return file.read()


def differ(where, wanted, found):
    """Says what one has and the other lacks."""
    wanted, found = set(wanted), set(found)
    faults.extend(f"{where} lacks {missing}" for missing in sorted(wanted - found))
    faults.extend(f"{where} has {extra}, and the help doesn't" for extra in sorted(found - wanted))


# ---- the help


def help_text(place, command):
    if os.path.isdir(place):
        with open(os.path.join(place, command + "_help" if command else "help")) as file:
            return file.read()
    line = [place, *([command] if command else []), "--help"]
    return subprocess.run(line, capture_output=True, text=True, check=True, timeout=60).stdout


def section(help, title):
    """The lines below a title, up to the first that isn't indented."""
    return re.search(rf"^{title}:\n((?:[ ].*\n)*)", help, re.M).group(1).splitlines()


def options_of(help):
    """Short and long name, and the value's name: of each option. And what each takes where it is left out."""
    options, defaults = set(), {}
    for line in section(help, "Options"):
        short, long, value = re.match(r" +(?:(-\w), )?(--[\w-]+)(?: <(\w+)>)?", line).groups()
        options.add((short, long, value))
        left_out = re.search(r"\[default: (\w+)\]", line)
        if left_out:
            defaults[long] = left_out.group(1)
    return options, defaults


def commands_of(help):
    return {line.split()[0] for line in section(help, "Commands")}


def named(option):
    short, long, value = option
    return (f"{short}, " if short else "") + long + (f" {value}" if value else "")


def words(options):
    return {word for option in options for word in option[:2] if word}


# ---- the man pages


def entries(page):
    """The options of a part of a page: each that a tag names, and the text below it."""
    for tag, body in re.findall(r"^\.TP\n(.*\n)((?:(?!\.TP|\.PP|\.S[HS]).*\n)*)", page, re.M):
        tag = tag.replace("\\-", "-")
        long = re.search(r"--[\w-]+", tag)
        if long:
            short, value = re.search(r"(?<![\w-])-\w\b", tag), re.search(r'" (\w+)"', tag)
            yield (short and short.group(), long.group(), value and value.group(1)), body


def part(page, head):
    """What stands below a head, up to the next one."""
    found = re.search(rf"^\.S[HS] {head}\n((?:(?!\.S[HS]).*\n)*)", page, re.M)
    return found.group(1) if found else ""


def compare_page(where, page, options, defaults):
    found = dict(entries(page))
    differ(where, map(named, options), map(named, found))
    for (_, long, _), body in found.items():
        if long in defaults and f"{defaults[long]}, if it is left out" not in body:
            faults.append(f"{where}: {long} doesn't say that it is {defaults[long]}, if it is left out")


def old_words(page):
    return re.findall(r"^\.B (\S+)\nis an old word for\n\.BR (\S+) ,", page.replace("\\-", "-"), re.M)


# ---- the completions


def of_bash(*line):
    """What bash offers after these words, of which the last may be a beginning."""
    script = 'source "$1"; shift; COMP_WORDS=("$@"); COMP_CWORD=$(($# - 1)); _ymx; printf "%s\\n" "${COMPREPLY[@]}"'
    command = ["bash", "-c", script, "bash", os.path.join(SHARE, "ymx.bash"), "ymx", *line]
    return set(subprocess.run(command, capture_output=True, text=True, check=True, timeout=60).stdout.split())


def compare_bash(command, options):
    before = [command] if command else []
    where = f"the completion for bash, after `{' '.join(['ymx'] + before)}`,"
    differ(where, words(options), of_bash(*before, "-"))
    for _, long, value in options if command else ():
        offered = of_bash(command, long, "-")
        if value and offered:
            faults.append(f"{where} takes {long} for one without a value")
        if not value and not offered:
            faults.append(f"{where} takes {long} for one with a value")


def specs_of_zsh(lines):
    """The options that lines of `_arguments` name, as `with_values` says them."""
    found = set()
    for line in lines:
        if not re.match(r" +(_arguments )?'", line):
            continue
        # without what is excluded and what is said
        bare = re.sub(r"'\([^)]*\)'?|\[[^]]*\]", " ", line)
        found |= {word + (" with a value" if end else "") for word, end in re.findall(r"(?<![\w-])(--?[A-Za-z][\w-]*)(=?)", bare)}
    return found


def parts_of_zsh():
    """The lines that stand before the cases, under None, and those of each command."""
    parts, command = {None: []}, None
    for line in text("_ymx").split("_ymx_commands() {")[0].splitlines():
        label = re.match(r" {8}(\w+)\)$", line)
        if label:
            command = label.group(1)
        parts.setdefault(command, []).append(line)
    return parts


def parts_of_fish():
    """The options of each command, None for none; those that stand under no condition belong to each. And the commands."""
    parts, everywhere, commands = {None: set()}, set(), set()
    for line in text("ymx.fish").splitlines():
        if not line.startswith("complete "):
            continue
        end = " with a value" if " -x" in line else ""
        found = {("-" if kind == "s" else "--") + word + end for kind, word in re.findall(r" -([sl]) ([\w-]+)", line)}
        seen = re.search(r"'__fish_seen_subcommand_from ([\w ]+)'", line)
        if seen:
            for command in seen.group(1).split():
                parts.setdefault(command, set()).update(found)
        elif "not __fish_seen" in line:
            parts[None] |= found
            commands |= set(re.findall(r" -a (\w+)", line))
        else:
            everywhere |= found
    return parts, everywhere, commands


def with_values(options):
    """Each word for an option, and whether it takes a value."""
    return {word + (" with a value" if value else "") for *names, value in options for word in names if word}


def check_syntax():
    """Of the shells that stand here."""
    for shell, name in ("bash", "ymx.bash"), ("zsh", "_ymx"), ("fish", "ymx.fish"):
        if shutil.which(shell):
            run = subprocess.run([shell, "-n", os.path.join(SHARE, name)], capture_output=True, text=True, timeout=60)
            if run.returncode or run.stderr:
                faults.append(f"{name}: {run.stderr}")


def main(place):
    overall = help_text(place, None)
    commands = commands_of(overall)
    page = text("ymx.1")
    zsh, (fish, everywhere, commands_of_fish) = parts_of_zsh(), parts_of_fish()
    differ("ymx.1", commands, re.findall(r"^\.SS ymx (\w+)$", page, re.M))
    differ("the completion for bash", commands, {word for word in of_bash("") if not word.startswith("-")})
    differ("the completion for bash, after `ymx help`,", commands, of_bash("help", ""))
    differ("the completion for zsh", commands, re.findall(r"^ +'(\w+):", text("_ymx").split("_ymx_commands() {")[1], re.M))
    differ("the completion for zsh, as cases,", commands, set(zsh) - {None})
    differ("the completion for fish", commands, commands_of_fish)
    differ("the completion for fish, as a list,", commands, re.search(r"^set -l commands (.*)$", text("ymx.fish"), re.M).group(1).split())
    count = 0
    for command in [None, *sorted(commands - {NO_HELP})]:
        options, defaults = options_of(overall if command is None else help_text(place, command))
        count += len(options)
        own = f"ymx-{command}.1"
        if command is None:
            compare_page("ymx.1", part(page, "OPTIONS"), options, defaults)
        elif os.path.exists(os.path.join(SHARE, own)):
            compare_page(own, part(text(own), "OPTIONS"), options, defaults)
            for old, new in old_words(text(own)):
                if new not in words(options):
                    faults.append(f"{own}: {new}, for which {old} is an old word, is none of the help's")
                # an option without its value is a mistake, but of another kind than a word that isn't known
                if not os.path.isdir(place):
                    said = subprocess.run([place, command, old], capture_output=True, text=True, timeout=60).stderr
                    if "a value is required" not in said:
                        faults.append(f"{own}: the program doesn't take {old}: {said.splitlines()[:1]}")
        else:
            # its --help and its --version stand under OPTIONS, for all
            own_options = {option for option in options if option[1] not in ("--help", "--version")}
            compare_page(f"ymx.1, of {command},", part(page, f"ymx {command}"), own_options, defaults)
        compare_bash(command, options)
        of = f", of {command}," if command else ""
        differ(f"the completion for zsh{of}", with_values(options), specs_of_zsh(zsh.get(command, ())))
        differ(f"the completion for fish{of}", with_values(options), fish.get(command, set()) | everywhere)
    check_syntax()
    for fault in faults:
        print(fault)
    if not faults:
        print(f"{len(commands)} commands and {count} options stand in the man pages and in the completions")
    return 1 if faults else 0


sys.exit(main(sys.argv[1]))

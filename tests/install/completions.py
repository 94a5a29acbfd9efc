"""The completions, each tried in its shell."""
import os
import shutil
import tempfile
import unittest

import options
import program

FOLDER = os.path.join(program.ROOT, "completions")

BASH = """
source "$1/sf.bash"
compopt() { echo "(files)"; }
COMP_WORDS=($2) COMP_CWORD=$(( ${#COMP_WORDS[@]} - 1 ))
[[ $2 == *' ' ]] && COMP_WORDS+=('') COMP_CWORD=$(( COMP_CWORD + 1 ))
_sf
printf '%s\\n' "${COMPREPLY[@]}"
"""

# The line is typed into a zsh of its own, whose completion tells its matches.
ZSH = r"""
zmodload zsh/zpty
zpty typed zsh -f -i
zpty -w typed "PROMPT=; stty -echo; fpath=(${(q)1} \$fpath); autoload -Uz compinit; compinit -D -u; source ${(q)3}; echo re''ady"
zpty -r typed text '*ready*'
zpty -n -w typed "$2"$'\C-i'
zpty -r typed text '*--begin--*--end--*'
print -r -- "${${text#*--begin--}%--end--*}"
zpty -d typed
"""

ZSH_TYPED = r"""
compadd() {
    local -a hits
    if [[ ${@[1,(i)(-|--)]} == *-(O|A|D)\ * ]]; then builtin compadd "$@"; return; fi
    builtin compadd -A hits "$@"
    (( $#hits )) && print -rl -- $hits
}
tell-all() { print -r -- --begin--; _main_complete; print -r -- --end-- }
zle -C tell-all complete-word tell-all
bindkey '^I' tell-all
"""


class Completions:
    """What each shell has to complete; `complete` gives the words by which it completes a line."""

    def same(self, line, expected):
        with self.subTest(line):
            self.assertEqual(set(self.complete(line)), set(expected))

    def test_commands(self):
        told = set(self.complete("sf "))
        self.assertLessEqual(program.commands(), told)
        self.assertLessEqual(told, program.commands() | program.options())
        self.same("sf c", {name for name in program.commands() if name.startswith("c")})

    def test_options_of_the_program(self):
        self.same("sf -", program.options())

    def test_options_of_each_command(self):
        for command in program.working():
            self.same(f"sf {command} -", program.options(command))

    def test_help(self):
        self.same("sf help ", program.commands() | {"formats"})
        self.same("sf help show ", [])

    def test_the_command_is_the_first_word(self):
        self.same("sf print scan -", program.options("print"))

    def test_nothing_is_an_option_behind_two_dashes(self):
        self.same("sf print %d -- -", [])

    def test_what_stands_after_each_option(self):
        """The values that the option has, where there are a few; else no word, and no option."""
        for it in options.table():
            if it.value:
                for command in it.commands:
                    for name in it.names:
                        self.same(f"sf {command} {name} ", options.VALUES.get(it.name, ()))
                        self.same(f"sf {command} {name} -", ())

    def test_options_behind_those_of_lines(self):
        self.same("sf scan --lines --k", ["--keep-going"])
        self.same("sf scan --lines -e %d --qui", ["--quiet"])
        self.same("sf scan --lines --m", ["--matching"])
        self.same("sf print --r", ["--raw"])
        self.same("sf check --w", ["--width"])

    def test_forms(self):
        self.same("sf scan --output t", ["tsv"])


class Bash(Completions, unittest.TestCase):
    def complete(self, line):
        return program.output("bash", "--norc", "-c", BASH, "bash", FOLDER, line).split()

    def test_files_behind_redirections(self):
        self.same("sf scan %d < ", ["(files)"])

    def test_it_is_registered(self):
        text = program.output("bash", "--norc", "-c", f"source '{FOLDER}/sf.bash'; complete -p sf")
        self.assertEqual(text, "complete -F _sf sf\n")


@unittest.skipUnless(shutil.which("fish"), "there is no fish")
class Fish(Completions, unittest.TestCase):
    def complete(self, line):
        text = program.output("fish", "--no-config", "-c", "source $argv[1]/sf.fish; complete -C $argv[2]", FOLDER, line)
        return [it.split("\t")[0] for it in text.splitlines()]


@unittest.skipUnless(shutil.which("zsh"), "there is no zsh")
class Zsh(Completions, unittest.TestCase):
    def complete(self, line):
        with tempfile.NamedTemporaryFile("w", suffix=".zsh") as typed:
            typed.write(ZSH_TYPED)
            typed.flush()
            return program.output("zsh", "-f", "-c", ZSH, "zsh", FOLDER, line, typed.name).split()

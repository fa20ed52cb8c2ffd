# shellcheck shell=bash
# Sourced by the scripts that a user runs, before any work, with `script` set to the script's own path and `root` to the repository: its page of help,
# the words that it takes, the tools that it needs.
: "${root:?}" "${script:?}"

# fail LINE: ends the script with a line of its own
fail() {
    echo "${script##*/}: $1" >&2
    exit 2
}

# print TEXT: prints all that the script says, as a page of help, and ends the script
print() {
    printf '%s\n' "$1" 2>/dev/null || fail "standard output could not be written"
    exit 0
}

# is_help WORD: whether a word asks for help
is_help() {
    [[ $1 == --help || $1 == -h ]]
}

# takes_help WORDS..: where one of the words asks for help, it is printed: the comment at the head of the script. Its first line is the usage.
takes_help() {
    local word
    for word; do
        # the comment ends before the first line that is none
        ! is_help "$word" || print "$(sed -n '1d; /^#/!q; s/^# \{0,1\}//p' "$script")"
    done
}

# no_words WORDS..: help where it is asked for, and refuses any other word
no_words() {
    takes_help "$@"
    [[ $# -eq 0 ]] || fail "no word $(printf %q "$1"); $(usage)"
}

# usage: the line that says which words the script takes
usage() {
    sed -n '2s/^# //p' "$script"
}

# The tools, by what each of them does here.
declare -A does=(
    [rt]="proves the crates: the Rattle toolchain"
    [cargo]="builds the Rust crates"
    [cc]="links the Rust programs"
    [gcc]="compiles the programs in C"
    [g++]="compiles the test of the interface from C++"
    [objdump]="shows whether the library keeps state"
    [python3]="checks documents, pictures and the commands in README.md"
    [git]="fetches the earlier commit"
    [as]="sets the libraries apart in memory"
    [ld]="joins a library with its calls"
    [objcopy]="gives two libraries names of their own"
)

# missing TOOL MORE: says that a tool is not there, and what it does
missing() {
    echo "${script##*/}: missing: $1, which ${does[${1%% *}]}$2" >&2
}

# needs TOOL..: says of each tool that is missing what it is needed for; the status is 0 only where none is. An empty word stands for no tool.
needs() {
    local tool status=0
    for tool; do
        if [[ -n $tool ]] && ! command -v "$tool" >/dev/null; then
            missing "$tool" ""
            status=1
        elif [[ $tool == cargo ]]; then
            recent_cargo || status=1
        fi
    done
    return $status
}

# recent_cargo: whether cargo runs, and is as recent as Cargo.toml asks
recent_cargo() {
    local asked there
    asked=$(sed -n 's/^rust-version = "\(.*\)"$/\1/p' "$root/Cargo.toml")
    there=$(cargo --version 2>/dev/null)
    if ! [[ $there =~ ^cargo\ ([0-9.]+) ]] || ! printf '%s\n' "$asked" "${BASH_REMATCH[1]}" | sort -VC; then
        missing "cargo $asked or later" "; there is ${there:-one that does not run}"
        return 1
    fi
}

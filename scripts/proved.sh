# shellcheck shell=bash
# Sourced by the scripts at the root, with `script` and `root` set as words.sh asks: proves and builds what they run, and looks whether a
# descriptor is open.
: "${root:?}"
. "$root/scripts/words.sh"

# What is proved, copied from where rt makes it, and the tool that is built over the library; paths below the root. cargo builds where
# .cargo/config.toml says.
library=target/staticlib/libtelephone.a
keys=target/bin/keys
built=rust/target
plan=$built/release/plan

# below NAME: how many crates are proved for that crate: those that it stands on, and itself. crates.txt has the lowest first.
below() {
    tac "$root/crates.txt" | awk -F '[: ]+' -v name="$1" '
        BEGIN { wanted[name] = 1 }
        $1 in wanted { n++; for (i = 2; i <= NF; i++) if ($i != "") wanted[$i] = 1 }
        END { print n }'
}

# is_new FILE: whether FILE is there and newer than all that is proved. Wrong programs, which have to be refused, what rt makes, and documents are not.
is_new() {
    [[ -e $1 && -z $(find "$root/crates" "$root/crates.txt" \( -name must-fail -o -name wrong -o -name out \) -prune -o \
        -newer "$1" \( -name '*.rt' -o -name '*.antt' -o -name crates.txt \) -print -quit) ]]
}

# to_prove FILE..: prints the tool that proves, where one of the files, below the root, is not new
to_prove() {
    local file
    for file; do
        is_new "$root/$file" || { echo rt; return; }
    done
}

# proved FILE NAME MADE COMMAND..: makes FILE, below the root, by the command, which proves the crate NAME in its folder and leaves MADE in its out/;
# nothing to do where FILE is newer than all sources. Of two at a time the second waits for the first.
proved() {
    local file=$root/$1 lock status
    needs "$(to_prove "$1")" || return 1
    shift
    is_new "$file" && return 0
    mkdir -p "$root/target" && exec {lock}>"$root/target/proving" && flock "$lock" || return 1
    is_new "$file" || prove_now "$file" "$@"
    status=$?
    exec {lock}>&-
    return $status
}

# progress: of what rt prints, a line for each crate that it proves, as soon as it is proved, with the seconds since the line before. An awk would do,
# but Debian's keeps the lines of a pipe back.
progress() {
    local line name='' n=0 since=$SECONDS
    while IFS= read -r line; do
        if [[ $line =~ ^crate\ ([a-z_]+): ]]; then
            name=${BASH_REMATCH[1]}
        elif [[ $line == logic=proved\ * && -n $name ]]; then
            printf '  %2d  %s proved (%d s)\n' $((++n)) "$name" $((SECONDS - since))
            name='' since=$SECONDS
        fi
    done
}

# prove_now FILE NAME MADE COMMAND..: the same without a look at FILE. Each crate proved is a line on standard error. Where it fails, the end of what the
# command said is shown.
prove_now() {
    local file=$1 name=$2 made=$3 log
    shift 3
    log=$(mktemp) || return 1
    echo "proving $name and what it stands on, $(below "$name") crates: this takes minutes, once" >&2
    if (cd "$root/crates/$name" && set -o pipefail && "$@" </dev/null 2>&1 | tee "$log" | progress >&2) &&
        mkdir -p "${file%/*}" && cp "$root/crates/$name/out/$made" "$file.new" && mv "$file.new" "$file"; then
        rm -f "$log"
        return 0
    fi
    tail -n 20 "$log" >&2
    echo "not proved: $*" >&2
    rm -f "$log"
    return 1
}

# The static library, which the tool `plan` and the timed programs link.
library() {
    proved "$library" telephone_c libtelephone_c.a rt lib
}

# The program `keys`. rt runs it too, on no input.
keys_program() {
    proved "$keys" keys keys rt run
}

# is_built: whether the tool is there and newer than its sources and the library, which is new
is_built() {
    local sources=("$root"/{Cargo.toml,Cargo.lock,rust/{plan,telephone}/{Cargo.toml,src},rust/telephone/build.rs,"$library"})
    is_new "$root/$library" && [[ -e $root/$plan && -z $(find "${sources[@]}" -newer "$root/$plan" -type f -print -quit) ]]
}

# plan_program: builds the tool over the library, where it is not built. All tools are asked for before anything is proved.
plan_program() {
    is_built && return 0
    needs "$(to_prove "$library")" cargo cc && library || return 1
    echo "building plan" >&2
    (cd "$root" && cargo build --locked --quiet --release --package plan --target-dir "$built") >&2 || return 1
    touch "$root/$plan"
}

# is_open NUMBER: whether the descriptor is open. A closed one would be taken by the next file that is opened.
is_open() {
    [[ -e /proc/$$/fd/$1 ]]
}

# How the core and the programs are built, and how C code is compiled for a processor, linked with the core's archive for it and run: sourced by the
# scripts that need it, at the top of the repository.

machine=$(uname -m)
processors='x86_64 aarch64 riscv64'
strict=(-Wall -Wextra -pedantic -Werror)

# Ends the script where the toolchain is not there, and says how to get going.
need_rt() { # SCRIPT
    [ "$machine" = x86_64 ] || { echo "$1: the kit that README.md names is for x86-64, and this machine is $machine" >&2; exit 1; }
    command -v rt >/dev/null && return
    cat >&2 <<END
$1: rt is not there. It comes with the Rattle kit whose 'rt version' prints the line that README.md names: unpack that kit anywhere and put its
$1: folder bin on the PATH. 'rt selftest' then shows that it works, and $1 can be run again.
END
    exit 1
}

# The folder of the kit.
kit_of_rt() { dirname "$(dirname "$(readlink -f "$(command -v rt)")")"; }

# The archive that c/archive writes for a processor.
archive_of() { printf 'target/staticlib/%s/libpassthru.a\n' "$1"; } # PROCESSOR

# The crates of the repository that a crate is made of, one a line, lowest first as rt builds them; itself is the last.
made_of() { # CRATE
    awk -F: -v top="$1" '
        { sub(/#.*/, "") }
        NF > 1 { split($1, name, " "); needs[name[1]] = $2 }
        function visit(n,   a, k, m) {
            if (!(n in needs) || n in seen) return
            seen[n] = 1
            m = split(needs[n], a, " ")
            for (k = 1; k <= m; k++) visit(a[k])
            print n
        }
        END { visit(top) }' crates.txt
}

# The checksum of all that a crate is made of: the kit, the lines of crates.txt, and the files of src/, specs/ and proofs/.
sum_of() { # CRATE
    local crate
    {
        rt version
        sed 's/#.*//' crates.txt
        for crate in $(made_of "$1"); do find "crates/$crate/src" "crates/$crate/specs" "crates/$crate/proofs" -type f 2>/dev/null || true; done | LC_ALL=C sort | tr '\n' '\0' | xargs -0 sha256sum
    } | sha256sum | cut -d' ' -f1
}

# Says of each crate that rt begins to prove that it is the n-th of so many: on one line of a terminal, else a line each. Those that are kept go unsaid.
progress() { # SCRIPT CRATE
    local line n name
    local -A place=()
    n=0
    while IFS= read -r name; do n=$((n + 1)) place[$name]=$n; done < <(made_of "$2")
    while IFS= read -r line; do
        case $line in "rt: chose --jobs "*" for "*) ;; *) continue ;; esac
        name=${line##* }
        [ -n "${place[$name]-}" ] || continue
        if [ -t 2 ]; then printf '\r\033[K%s: crate %d of %d: %s' "$1" "${place[$name]}" "$n" "$name" >&2; else printf '%s: crate %d of %d: %s\n' "$1" "${place[$name]}" "$n" "$name" >&2; fi
    done
    [ ! -t 2 ] || printf '\r\033[K' >&2
}

# The place of a program.
program_of() { printf 'crates/%s/out/%s\n' "$1" "$1"; } # PROGRAM

# Proves and builds a program, unless it is there and newer than all that it is made of, as `rt ci` leaves it. `rt run` also runs what it builds,
# here on an empty input; what that run ends with says nothing.
build_program() { # PROGRAM LOG
    local bin crate fresh=1
    bin=$(program_of "$1")
    [ -x "$bin" ] && [ ! crates.txt -nt "$bin" ] || fresh=''
    for crate in $(made_of "$1"); do
        [ -n "$fresh" ] && [ -z "$(find "crates/$crate/src" "crates/$crate/specs" "crates/$crate/proofs" -type f -newer "$bin" -print -quit 2>/dev/null)" ] || fresh=''
    done
    [ -z "$fresh" ] || return 0
    (cd "crates/$1" && rt run) </dev/null >"$2" 2>&1 || true
    grep -q "^rt: running out/$1;" "$2" && [ -x "$bin" ] && touch "$bin"
}

# Installs packages where a command is missing.
install() { # COMMAND PACKAGE..
    command -v "$1" >/dev/null && return
    local sudo=''
    [ "$(id -u)" -eq 0 ] || sudo=sudo
    echo "installing ${*:2}" >&2
    {
        $sudo apt-get -o DPkg::Lock::Timeout=300 update -qq &&
            $sudo env DEBIAN_FRONTEND=noninteractive apt-get -o DPkg::Lock::Timeout=300 install -y -qq --no-install-recommends "${@:2}"
    } >/dev/null 2>&1 && command -v "$1" >/dev/null || { echo "$1 is not there, and apt-get could not install ${*:2}" >&2; return 1; }
}

# Sets cc, nm and run (a prefix, empty on the machine's own processor) for a processor, and cxx for this machine. Fails where Debian's compiler
# or an emulator can neither be found nor installed.
tools_for() { # PROCESSOR
    cxx=g++
    if [ "$1" = "$machine" ]; then
        install gcc gcc libc6-dev && install g++ g++ || return 1
        cc=gcc nm=nm run=''
        return
    fi
    local name=${1//_/-} port=$1
    case $1 in x86_64) port=amd64 ;; aarch64) port=arm64 ;; esac
    install "$1-linux-gnu-gcc" "gcc-$name-linux-gnu" "libc6-dev-$port-cross" && install g++ g++ libc6-dev || return 1
    cc=$1-linux-gnu-gcc nm=$1-linux-gnu-nm run=qemu-$1
    install "qemu-$1" qemu-user
}

# What the scripts of this folder share. Each reads it by `. "$here/common.sh"`, where `here` is the folder of the script behind all symlinks.
# shellcheck shell=sh
export LC_ALL=C

# The version of dtool, as `dtool --version` prints it.
version=0.9.0

newline='
'

die() { printf '%s: %s\n' "${self##*/}" "$*" >&2; exit 1; }

# Sets `dtool` to the program: $DTOOL; else the one installed with this script, the one built in the repository, or the one on the path.
find_dtool() {
    dtool=${DTOOL:-}
    for it in "$here/../../bin/dtool" "$here/../crates/dtool/out/dtool"; do
        [ -n "$dtool" ] || [ ! -x "$it" ] || dtool=$it
    done
    [ -n "$dtool" ] || dtool=dtool
    command -v "$dtool" > /dev/null || die "no program dtool: set DTOOL to its path"
}

# Whether a file can be read; else `why` says why not.
can_read() {
    why=
    if [ ! -e "$1" ]; then why='no such file'; elif [ -d "$1" ]; then why='it is a folder'; elif [ ! -r "$1" ]; then why='permission denied'; fi
    [ -z "$why" ]
}

# Whether dtc's dialect may cause a fault, as dtool reports it; then `dialect` may make a source of it that dtool compiles.
is_of_dialect() {
    case $1 in
    *' BadToken'* | *' DuplicateNode' | *' DuplicateProperty' | *' DuplicateLabel' | *' OverlayDelete' | *' BadName'*) return 0 ;;
    esac
    return 1
}

# Runs a program of the Python package over libdtool.so: in the repository the package of python/ and the library that `tools/build --library` made,
# else those installed with this script. Python runs with -I: nothing is read from the working folder, nor from folders that the environment names.
run_python() { # MODULE WORD..
    here=$(cd "$here" && pwd) || exit 2
    python=$here/python
    if [ ! -d "$python" ]; then
        python=$here/../python
        export DTOOL_LIBRARY="${DTOOL_LIBRARY:-$here/../crates/dt_c/out}"
    fi
    command -v "${PYTHON:-python3}" > /dev/null || {
        echo "dtool-$1: no program ${PYTHON:-python3}: it needs Python 3.8 or later" >&2
        exit 2
    }
    exec "${PYTHON:-python3}" -I -c 'import importlib, sys
sys.path.insert(0, sys.argv.pop(1))
name = sys.argv.pop(1)
try:
    module = importlib.import_module("dtool." + name)
except ImportError as why:
    print(f"dtool-{name}: {why}", file=sys.stderr)
    sys.exit(2)
sys.exit(module.main())' "$python" "$@"
}

# What the toolchain is that proves and builds dtool, for whoever lacks it.
lacks_toolchain() {
    die "rt is not on the path. dtool is proved and built by the Rattle toolchain, rattle-kit-13b or later (README.md, \"The toolchain\")"
}

# ---- what a build's tool shares: its room, its output, and what is run where dtool refuses

room= made=
leave() {
    [ -z "$room" ] || rm -rf -- "$room"
    [ -z "$made" ] || rm -f -- "$made"
}

# A folder for what isn't kept.
make_room() { [ -n "$room" ] || room=$(mktemp -d "${TMPDIR:-/tmp}/dtool.XXXXXX") || exit 1; }

# Sets `to` to the file in which the output named `out` is made: beside its place, with the mode of the file that is there; or, where the output is
# no file, or nothing can be made beside it, in the room.
begin_output() {
    target=$out made=
    if [ -z "$out" ] || [ "$out" = - ] || { [ -e "$out" ] && [ ! -f "$out" ]; }; then make_room; to=$room/out; return; fi
    [ ! -L "$out" ] || target=$(readlink -f -- "$out") || die "can't write \"$out\": its symlink leads nowhere"
    case $target in */*) folder=${target%/*}/ ;; *) folder=. ;; esac
    [ -d "$folder" ] || die "can't write \"$out\": there is no folder \"${folder%/}\""
    [ ! -e "$target" ] || [ -w "$target" ] || die "can't write \"$out\": permission denied"
    case $target in -*) target=./$target ;; esac
    made=$target.$$.tmp
    if [ -e "$target" ]; then cp -p "$target" "$made"; else true > "$made"; fi 2> /dev/null && { to=$made; return; }
    rm -f "$made"
    made=
    [ -e "$target" ] || die "can't write \"$out\": nothing can be made in \"${folder%/}\""
    make_room
    to=$room/out
}

# Moves what was made to its place, or copies it there.
end_output() {
    if [ -n "$made" ]; then
        mv -f "$made" "$target" || die "can't write \"$out\""
        made=
    elif [ -z "$out" ] || [ "$out" = - ]; then cat "$to" || exit 1
    else cat "$to" > "$target" || exit 1
    fi
}

# Whether the fallback may be run for a fault: not where memory, a file or the program failed. `status` is the program's.
may_go_on() { # PROGRAM FAULT
    [ -n "$1" ] && [ "$status" = 1 ] || return 1
    case $2 in 'fault 1 '* | 'fault 90 '* | 'fault 91 '*) return 1 ;; 'fault '*) return 0 ;; esac
    return 1
}

# Ends with the answer of the fallback, which gets the same words and the standard input that was read. It is run without the variables that name a
# fallback, so that a script that names itself ends.
go_on() { # PROGRAM WORD..
    program=$1
    shift
    command -v "$program" > /dev/null || die "no program $program, which was to be run instead"
    [ -z "$made" ] || rm -f -- "$made"
    made=
    unset DTOOL_ELSE DTOOL_ELSE_FDTOVERLAY
    if [ -n "$room" ] && [ -f "$room/stdin" ]; then "$program" "$@" < "$room/stdin"; else "$program" "$@"; fi
    exit $?
}

# Proves a crate over what its libraries state, and builds it. Its line of crates.txt names them: the repository's, and the toolchain's. Is called
# in crates/, and $kit is the toolchain.
prove_and_build() { # CRATE ROOT-FILE WORD..
    crate=$1 source=$2; shift 2
    for name in std $(sed -n "s/^$crate\( staticlib\)\{0,1\}://p" ../crates.txt); do
        if [ -d "$name" ]; then libraries=../$name/out/rlib; else libraries=$kit/rlibs; fi
        set -- "$@" --extern "$name=$libraries/$name.rlib"
    done
    for libraries in */out/rlib; do set -- "$@" -L "dependency=../$libraries"; done
    (cd "$crate" && "$kit/bin/rattle" build --crate-name "$crate" "$source" --links "$crate=" "$@" -L "dependency=$kit/rlibs" \
        --antt-project "$kit/rattle/logic/antt-project.json" --logic-built "$kit/logic_built")
}

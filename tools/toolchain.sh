# What the scripts that run or link the toolchain's programs share. They set `root`, the repository, and `me`, the name they speak under.

die() {
    printf '%s: %s\n' "$me" "$1" >&2
    exit 2
}

# Sets `home`, the toolchain's folder: above the rt that the path leads to, through links; and `emulator`, for programs of x86-64, which is
# empty where the machine's own processor runs them, or where the machine has none.
find_toolchain() {
    home=${RATTLE_HOME:-}
    if [ -z "$home" ]; then
        file=$(command -v rt) || die 'rt is not on the path, and RATTLE_HOME is not set'
        while [ -L "$file" ]; do
            link=$(readlink "$file")
            case $link in /*) file=$link ;; *) file=$(dirname "$file")/$link ;; esac
        done
        home=$(cd "$(dirname "$file")/.." && pwd -P)
    fi
    emulator=
    [ "$(uname -m)" = x86_64 ] || emulator=$(command -v qemu-x86_64) || emulator=
}

# Notes the Debian package $2 as missing where the command or the file $1 is not there.
missing=
need() {
    case $1 in
    /*) [ -e "$1" ] ;;
    *) command -v "$1" >/dev/null 2>&1 ;;
    esac || missing="$missing $2"
}

# Installs what is missing, where this is root; else says what it is.
install_missing() {
    [ -n "$missing" ] || return 0
    if [ "$(id -u)" -ne 0 ] || ! command -v apt-get >/dev/null 2>&1; then
        die "these Debian packages are missing:$missing"
    fi
    echo "$me: installing$missing" >&2
    { apt-get update -qq && DEBIAN_FRONTEND=noninteractive apt-get install -y -qq --no-install-recommends $missing; } >&2 </dev/null ||
        die "could not install$missing"
}

# Prints the folders of the crate $1 and of every crate of the repository that it stands on, and crates.txt itself.
sources_of() {
    echo "$root/crates.txt"
    awk -v crate="$1" -v folder="$root/crates/" '
        function visit(name, names, n, i) {
            if (name in seen || !(name in on)) return
            seen[name] = 1
            print folder name
            n = split(on[name], names, " ")
            for (i = 1; i <= n; i++) visit(names[i])
        }
        { sub(/#.*/, "") }
        /:/ { name = $1; sub(/:.*/, "", name); rest = $0; sub(/[^:]*:/, "", rest); on[name] = rest }
        END { visit(crate) }' "$root/crates.txt"
}

# Whether $1, built of the crate $2, is not there, or a source of it is newer: a file, or a folder that has lost one.
is_stale() {
    [ -f "$1" ] || return 0
    [ -n "$(sources_of "$2" | while read -r source; do find "$source" \( -name out -o -name must-fail \) -prune -o -newer "$1" -print; done | head -n 1)" ]
}

# Sets `archive`, the library for C, which is proved and built where it is stale.
build_archive() {
    archive=$root/crates/zonemap_c/out/libzonemap_c.a
    if is_stale "$archive" zonemap_c; then
        (cd "$root/crates/zonemap_c" && "$home/bin/rt" lib) >&2 </dev/null || die 'the library is not proved or not built'
        # A source with a newer date and the same text is not built again.
        touch "$archive"
    fi
}

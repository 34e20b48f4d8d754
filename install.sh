#!/bin/sh
# Builds the proved program and installs it, its manual page and its completions.
#
#   ./install.sh [PREFIX]    under PREFIX (/usr/local)
#   ./install.sh --deb       makes guard_VERSION_ARCHITECTURE.deb beside this script, which needs no toolchain where it is installed
set -eu
version=0.1.0

fail() {
    echo "install.sh: $1" >&2
    exit 1
}

usage() {
    echo "usage: ./install.sh [PREFIX] | ./install.sh --deb" >&2
    exit 2
}

# Puts the files under a folder; the second word is the folder in it where zsh looks for what packages, or others, complete.
put_under() {
    install -d "$1/bin" "$1/share/man/man1" "$1/share/bash-completion/completions" "$1/$2" "$1/share/fish/vendor_completions.d"
    install -m 755 crates/guard/out/guard "$1/bin/guard"
    install -m 644 packaging/guard.1 "$1/share/man/man1/guard.1"
    install -m 644 packaging/guard.bash "$1/share/bash-completion/completions/guard"
    install -m 644 packaging/_guard "$1/$2/_guard"
    install -m 644 packaging/guard.fish "$1/share/fish/vendor_completions.d/guard.fish"
}

# The version of the C library that the program asks for, as its symbols name it: a package that is installed beside an
# older one would not run.
needed_libc() {
    LC_ALL=C tr -c '[:alnum:]._' '\n' < crates/guard/out/guard | sed -n 's/^GLIBC_\([0-9][0-9.]*\)$/\1/p' | sort -t . -k 1,1n -k 2,2n | tail -n 1
}

make_package() {
    architecture=$(dpkg --print-architecture)
    libc=$(needed_libc)
    root=$(mktemp -d)
    trap 'rm -rf "$root"' EXIT
    chmod 755 "$root"
    put_under "$root/usr" share/zsh/vendor-completions
    install -d "$root/DEBIAN"
    cat > "$root/DEBIAN/control" << END
Package: guard
Version: $version
Architecture: $architecture
Maintainer: Gighentolu maintainers <maintainers@users.noreply.gighentolu.example>
Depends: libc6${libc:+ (>= $libc)}
Section: utils
Priority: optional
Description: policy checker for infrastructure templates, proved
 Judges a template (AWS CloudFormation, in JSON or YAML) by a file of rules.
END
    dpkg-deb --build --root-owner-group "$root" "guard_${version}_$architecture.deb"
}

# The number of crates that the program is made of.
crates_in_all() {
    awk -F : '
        !/^#/ && NF == 2 { stands_on[$1] = $2 }
        END {
            wanted[last = 1] = "guard"
            for (at = 1; at <= last; at++) {
                if (!(wanted[at] in stands_on) || seen[wanted[at]]++) continue
                total++
                many = split(stands_on[wanted[at]], more, " ")
                for (one = 1; one <= many; one++) wanted[++last] = more[one]
            }
            print total
        }' crates.txt
}

# Proves and builds the program, and names each crate once it is proved; all that is said goes into a log.
build() {
    mkdir -p crates/guard/out
    {
        (cd crates/guard && rt run -- drill --count 0) 2>&1 || echo "status of rt: $?"
    } | {
        name='' end=''
        while IFS= read -r line; do
            printf '%s\n' "$line" >&3
            case $line in
                "crate "*": modules"*) name=${line#crate } name=${name%%:*} ;;
                logic=proved*)
                    [ -z "$name" ] || echo "  $name"
                    name=''
                    ;;
                "status of rt: "*) end=$line ;;
            esac
        done
        [ -z "$end" ]
    } 3> "$log"
}

[ $# -le 1 ] || usage
prefix=${1-/usr/local}
case $prefix in
    --deb) ;;
    '' | -*) usage ;;
    /*) ;;
    *) prefix=$PWD/$prefix ;;
esac
cd "$(dirname "$0")"
log=crates/guard/out/install.log

# What would be missing at the end is asked for at the beginning.
command -v rt > /dev/null || fail "rt is not on the PATH: the toolchain that proves and builds the program is missing"
if [ "$prefix" = --deb ]; then
    command -v dpkg-deb > /dev/null || fail "dpkg-deb is not there: it makes the package"
else
    { mkdir -p "$prefix" && [ -w "$prefix" ]; } 2> /dev/null || fail "$prefix cannot be written: name another PREFIX"
fi

echo "The program is proved before it is built. The first time that takes one to two hours, in which two processors work on it;"
echo "what is proved is kept, so later it takes a minute. Of $(crates_in_all) crates each is named once it is proved:"
build || fail "the program was not proved or not built: $log has what was said"
[ -x crates/guard/out/guard ] || fail "crates/guard/out/guard was not built"

if [ "$prefix" = --deb ]; then
    make_package
else
    put_under "$prefix" share/zsh/site-functions
    echo "guard is installed under $prefix"
fi

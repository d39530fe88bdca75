# What the scripts share, each of which sources this file first: help, the words that are taken, the root of the tree, Debian's packages, and what makes and
# runs programs for x86-64 elsewhere.
#
# `--help` or `-h` among the words prints the comment at the script's head, and nothing else is done.
script=$(realpath "$0")
cd "$(dirname "${BASH_SOURCE[0]}")/.."
for word in "$@"; do
    case $word in -h | --help)
        sed -n '2,${ /^#/!q; s/^# \{0,1\}//p; }' "$script"
        exit
        ;;
    esac
done

# numbers MOST WORD..: ends with 2 where there are more than MOST words, or one that is no number from 1 on.
numbers() {
    local most=$1 word
    shift
    for word in "${@:most + 1}"; do
        echo "${script#"$PWD/"}: '$word' is one word too many; --help says which are taken" >&2
        exit 2
    done
    for word in "$@"; do
        # nine digits: no number that is worked out from it is too large for the shell
        [[ $word =~ ^[1-9][0-9]{0,8}$ ]] && continue
        echo "${script#"$PWD/"}: '$word' is no number from 1 to 999999999; --help says which words are taken" >&2
        exit 2
    done
}

# need PACKAGE..: installs those of Debian's packages that are missing.
need() {
    dpkg -s "$@" >/dev/null 2>&1 && return
    apt-get install -y --no-install-recommends "$@" || { apt-get update && apt-get install -y --no-install-recommends "$@"; }
}

# x86_64: sees to it that programs for x86-64 can be run; python: the Python that can load the library. On x86-64 nothing has to be done.
x86_64() { :; }
python() { python3 "$@"; }
[ "$(uname -m)" = x86_64 ] || . tools/x86_64.sh

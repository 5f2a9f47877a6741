# shellcheck shell=bash
# What is installed and packaged, and how it is got ready. It is read by the scripts of this repository, and does nothing by itself.

name=trace_cmd
top=$(cd "$(dirname "${BASH_SOURCE[0]}")/../.." && pwd) || exit 1
program=$top/crates/trace_cmd/out/trace_cmd

# installed: a line for each file: its mode, where it stands in the repository, and where below the prefix.
installed() {
    local file
    echo "755 crates/trace_cmd/out/trace_cmd bin/$name"
    echo "644 docs/trace_cmd.1 share/man/man1/trace_cmd.1"
    echo "644 scripts/completions/trace_cmd.bash share/bash-completion/completions/$name"
    echo "644 scripts/completions/_trace_cmd share/zsh/site-functions/_trace_cmd"
    (cd "$top" && ls README.md LICENSE CHANGELOG.md CONTRIBUTING.md docs/*.md docs/*.svg samples/*) | while read -r file; do
        echo "644 $file share/doc/$name/$file"
    done
}

# prefix_of WORD ..: the prefix that the words give.
prefix_of() {
    case $#:${1-} in
    0:) echo /usr/local ;;
    2:--prefix) echo "$2" ;;
    1:--prefix=?*) echo "${1#*=}" ;;
    *)
        echo "usage: $0 [--prefix DIR]" >&2
        exit 2
        ;;
    esac
}

# needs_program: ends where the proved program is not there.
needs_program() {
    if [ ! -x "$program" ]; then
        echo "$0: the proved program is not there. \`rt ci\` at the top of the repository makes it, and so does" >&2
        echo "\`rt run\` in crates/trace_cmd, as crates/trace_cmd/out/trace_cmd; both prove it first" >&2
        exit 1
    fi
}

# stripped FILE: takes what is for debuggers out of a program, by strip or by the kit's clang, which is that too.
stripped() {
    local clang
    if command -v strip >/dev/null; then
        strip -R .comment "$1"
    elif clang=$(dirname "$(dirname "$(realpath "$(command -v rt)")")")/toolchain/bin/clang && [ -x "$clang" ]; then
        (exec -a llvm-strip "$clang" -R .comment "$1")
    else
        echo "$0: the program is not stripped: neither strip nor the kit is there" >&2
    fi
}

# install_below FOLDER: puts all files below it.
install_below() {
    local mode from to
    while read -r mode from to; do
        install -D -m "$mode" "$top/$from" "$1/$to" || exit 1
    done < <(installed)
    stripped "$1/bin/$name"
}

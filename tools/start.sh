# shellcheck shell=sh
# What ./groute and ./grbound do beside finding the program `name`, in a clone and installed. `tools` is the folder of
# this file.

# Answers the words and ends, where all of them are --help, COMMAND --help or --version.
answer() {
    case $#,${1-},${2-} in
    1,--help, | 1,--version, | 2,*,--help) ;;
    *) return ;;
    esac
    # shellcheck source=tools/answers.sh
    . "$tools/answers.sh"
    find_answer "$@" || return 0
    printf '%s\n' "$text" || exit 7
    exit 0
}

# Runs the program $1 by the words behind it. On a terminal, what is wrong is told in words where it ends with status 2
# to 7.
run_program() {
    if [ -t 2 ] && command -v python3 >/dev/null; then
        exec python3 "$tools/in_words.py" "$@"
    fi
    exec "$@"
}

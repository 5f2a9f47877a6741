# Completion of trace_cmd's words in bash.

# _trace_cmd_values OPTION: the values of a command's option; fails where it has none.
_trace_cmd_values() {
    case $command$1 in
    *-i | split-o | restore-o) mapfile -t COMPREPLY < <(compgen -f -- "$word") ;;
    report-F | report-r | report--cpu | report--workers | selftest--workers | split-[smueC]) ;;
    *) return 1 ;;
    esac
}

_trace_cmd_options() {
    case $command in
    report) echo -F -v -t --ts-diff -l -R -r -I -S --cpu -E --events -f -P --calls --workers -w -N -i ;;
    split) echo -i -o -s -m -u -e -r -c -C ;;
    restore) echo -i -o ;;
    dump)
        echo -i --summary --head-page --head-event --ftrace-events --systems --events --kallsyms --printk --cmd-lines \
            --options --flyrecord --validate --all
        ;;
    selftest) echo --workers ;;
    esac
    echo -h --help
}

_trace_cmd() {
    local word=${COMP_WORDS[COMP_CWORD]} before=${COMP_WORDS[COMP_CWORD - 1]} command=${COMP_WORDS[1]}
    COMPREPLY=()
    if [ "$COMP_CWORD" = 1 ]; then
        mapfile -t COMPREPLY < <(compgen -W "report split restore dump selftest help --help --version" -- "$word")
    elif [ "$COMP_CWORD" -gt 2 ] && _trace_cmd_values "$before"; then
        :
    elif [[ $word == -* ]]; then
        mapfile -t COMPREPLY < <(compgen -W "$(_trace_cmd_options)" -- "$word")
    elif [[ $command == report || $command == dump || $command == restore ]]; then
        mapfile -t COMPREPLY < <(compgen -f -- "$word")
    fi
}

complete -o filenames -F _trace_cmd trace_cmd

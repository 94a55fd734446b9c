# Completes the words of Kombazily's commands in bash: options by what each command's --help tells, else commands and files.
_kombazily() {
    local word=${COMP_WORDS[COMP_CWORD]} options
    COMPREPLY=()
    case $word in
    -*)
        options=$("${COMP_WORDS[0]}" --help 2> /dev/null | grep -oE '(^|[^[:alnum:]_-])--?[a-z][a-z-]*' | grep -oE -- '-[-a-z]+')
        case ${COMP_WORDS[0]##*/} in kombazily-mpiexec) options='-n -abort -job -baseport -restart -patience -configfile' ;; esac
        mapfile -t COMPREPLY < <(compgen -W "$options" -- "$word" | sort -u)
        ;;
    *)
        case ${COMP_WORDS[COMP_CWORD - 2]-} in -n | -np) mapfile -t COMPREPLY < <(compgen -c -- "$word") ;; esac
        ;;
    esac
}
complete -o bashdefault -o default -F _kombazily kombazily-mpiexec mpisim mpiexplore mpidraw rank_main kombazily kombazily-check
# Of a package, which stands beside other MPIs, the plain names of compilers and launchers may be another one's.
case ${BASH_SOURCE[0]} in
/usr/share/*) complete -o bashdefault -o default -F _kombazily mpirun.kombazily mpiexec.kombazily mpi{cc,cxx,fort}.kombazily ;;
*) complete -o bashdefault -o default -F _kombazily mpirun mpiexec mpicc mpicxx mpic++ mpiCC mpifort mpif77 mpif90 ;;
esac
# In a clone of the repository: source tools/completions.bash
case ${BASH_SOURCE[0]} in *.bash) complete -o bashdefault -o default -F _kombazily run ;; esac

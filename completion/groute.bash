# Completion of groute, grbound and the tools for bash, as tools/dev/completion.py writes it.
_groute() {
    local word=${COMP_WORDS[COMP_CWORD]} before=${COMP_WORDS[COMP_CWORD - 1]} command=${COMP_WORDS[0]##*/}
    local options= values=
    if [ "$word" = = ]; then
        word=
    elif [ "$before" = = ]; then
        before=${COMP_WORDS[COMP_CWORD - 2]}
    fi
    if [ "$command" = groute ] && [ "$COMP_CWORD" -eq 1 ]; then
        [[ $word == -* ]] && values="--help --version" || values="route evaluate buffer make trial panels"
        COMPREPLY=($(compgen -W "$values" -- "$word"))
        return
    fi
    [ "$command" != groute ] || command="groute ${COMP_WORDS[1]}"
    case $command in
    'groute route') options="--workers --via-cost --batch --rule --stop --from --trace --help" ;;
    'groute evaluate') options="--via-cost --help" ;;
    'groute buffer') options="--help" ;;
    'groute make') options="--help" ;;
    'groute trial') options="--workers --rule --trace --help" ;;
    'groute panels') options="--help" ;;
    grbound) options="--steps --workers --via-cost --help --version" ;;
    groute-adjust) options="--help --layer --region --direction --output --names" ;;
    groute-carry) options="--help" ;;
    groute-congestion) options="--help --output --layer --edges --direction --region --worst --net --buffers --bound --tracks --json --names" ;;
    groute-def-to-ispd) options="--help --lef --tile --layers --adjust --via --driver --sink --liberty --kinds --kind --scale --keep-supply" ;;
    groute-differ) options="--help --worst --json" ;;
    groute-flow) options="--help --lef --liberty --rounds --workers --rule --stop --batch --steps --from --scale --sta --period --clock --sdc --verilog --program --json --output --tile --layers --adjust --kinds --driver --sink --kind --via --keep-supply" ;;
    groute-guides) options="--help --names" ;;
    groute-hotspots) options="--help --worst --csv --openroad --klayout --json --nets --names" ;;
    groute-insert) options="--help --output --lef --liberty --slack --below --keep --verilog --eco --pins --names" ;;
    groute-liberty) options="--help" ;;
    groute-netlist) options="--help --lef --liberty --output" ;;
    groute-report) options="--help --before --bound --via-cost --slack --timing --scale --json --output --names" ;;
    groute-required) options="--help --liberty --period --clock --sdc --output --library --figures --pins --names --scale" ;;
    groute-slowest) options="--help --slack --worst --scale --json --nets --names" ;;
    groute-spef) options="--help --output --verilog --pins --scale" ;;
    groute-to-solution) options="--help --names" ;;
    groute-where) options="--help" ;;
    esac
    case "$command $before" in
    'groute route --rule') values="first steep flat near" ;;
    'groute route --stop') values="still" ;;
    'groute trial --rule') values="first steep flat near" ;;
    'groute-adjust --direction') values="h v" ;;
    'groute-congestion --direction') values="h v" ;;
    'groute-flow --rule') values="first steep flat near" ;;
    'groute-hotspots --nets') values="clocks signals" ;;
    'groute-slowest --nets') values="clocks signals" ;;
    esac
    if [ -n "$values" ]; then
        COMPREPLY=($(compgen -W "$values" -- "$word"))
    elif [[ $word == -* ]]; then
        COMPREPLY=($(compgen -W "$options" -- "$word"))
    else
        mapfile -t COMPREPLY < <(compgen -f -- "$word")
    fi
}
complete -o filenames -F _groute groute grbound groute-adjust groute-carry groute-congestion groute-def-to-ispd groute-differ groute-flow groute-guides groute-hotspots groute-insert groute-liberty groute-netlist groute-report groute-required groute-slowest groute-spef groute-to-solution groute-where

# Completion of `dnp` for bash, made by tools/texts: source it.
_dnp() {
    local word=${COMP_WORDS[COMP_CWORD]} before=${COMP_WORDS[COMP_CWORD - 1]}
    if [ "$COMP_CWORD" = 1 ]; then
        COMPREPLY=($(compgen -W 'answer centre check concentrate decode loopback outstation poll rows sim help --help --version' -- "$word"))
        return
    fi
    case ${COMP_WORDS[1]}:$before in
    *:--capture|*:--chart|*:--controls|*:--journal|*:--network|*:--pcap|*:--picture|*:--plan|*:--queue|*:--replay|*:--trace) COMPREPLY=($(compgen -f -- "$word")) ;;
    answer:--own|answer:--peer|centre:--port|centre:--number|centre:--issue|centre:--every|centre:--polls|concentrate:--port|concentrate:--port2|concentrate:--bind|concentrate:--below|concentrate:--rounds|concentrate:--every|concentrate:--idle|loopback:--limit|outstation:--station|outstation:--port|outstation:--bind|outstation:--connections|outstation:--idle|poll:--own|poll:--peer|poll:--classes|poll:--read|poll:--time|poll:--operate|poll:--repeat|poll:--count|poll:--height|poll:--confirm|poll:--timeout|poll:--for|rows:--of|rows:--centre|rows:--after|rows:--every|sim:--limit|sim:--hours|sim:--seed|sim:--rate|sim:--faults|sim:--trace-from) COMPREPLY=() ;;
    answer:*) COMPREPLY=($(compgen -W '--own --peer --help --version' -- "$word")) ;;
    centre:*) COMPREPLY=($(compgen -W '--plan --network --journal --controls --port --number --issue --every --polls --forever --new --help --version' -- "$word")) ;;
    check:*) COMPREPLY=($(compgen -W '--plan --network --csv --json --help --version' -- "$word")) ;;
    concentrate:*) COMPREPLY=($(compgen -W '--plan --network --queue --controls --port --port2 --bind --below --rounds --every --forever --idle --new --migrate --help --version' -- "$word")) ;;
    decode:*) COMPREPLY=($(compgen -W '--raw --pcap --json --help --version' -- "$word")) ;;
    loopback:*) COMPREPLY=($(compgen -W '--plan --limit --plain --help --version' -- "$word")) ;;
    outstation:*) COMPREPLY=($(compgen -W '--plan --station --network --port --bind --connections --forever --idle --replay --repeat --verbose --help --version' -- "$word")) ;;
    poll:*) COMPREPLY=($(compgen -W '--own --peer --classes --read --clear-restart --time --operate --direct --raw --repeat --count --height --confirm --timeout --listen --for --json --times --hex --help --version' -- "$word")) ;;
    rows:*) COMPREPLY=($(compgen -W '--journal --queue --controls --of --plan --network --centre --after --follow --every --csv --json --help --version' -- "$word")) ;;
    sim:*) COMPREPLY=($(compgen -W '--plan --limit --trace --chart --capture --json --plain --hours --seed --rate --faults --picture --trace-from --network --help --version' -- "$word")) ;;
    help:*) COMPREPLY=($(compgen -W 'answer centre check concentrate decode loopback outstation poll rows sim' -- "$word")) ;;
    esac
}
complete -F _dnp dnp ./dnp

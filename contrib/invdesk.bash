# Completions of bash for invdesk. This file is written by tools/make_man.py from the program's words.

# Proposes those of the words that begin with what is typed.
_invdesk_words()
{
    mapfile -t COMPREPLY < <(compgen -W "$1" -- "$typed")
}

# Proposes files and folders.
_invdesk_files()
{
    compopt -o filenames 2> /dev/null
    mapfile -t COMPREPLY < <(compgen -f -- "$typed")
}

# Proposes the members that a line of the kind has which is told before, each with the sign behind it.
_invdesk_members()
{
    local members=
    case $kind in
        add_category) members='number key day name parent' ;;
        add_location) members='number key day name parent' ;;
        add_part) members='number key day name category template flags' ;;
        retire_part) members='number key day part' ;;
        add_line) members='number key day assembly component quantity optional consumable inherited variants' ;;
        drop_line) members='number key day line' ;;
        add_substitute) members='number key day line part' ;;
        drop_substitute) members='number key day substitute' ;;
        found) members='number key day part location quantity batch serials' ;;
        add) members='number key day item quantity' ;;
        remove) members='number key day item quantity' ;;
        transfer) members='number key day item location quantity' ;;
        split) members='number key day item quantity' ;;
        merge) members='number key day into items' ;;
        serialise) members='number key day item quantity serials' ;;
        set_status) members='number key day item status' ;;
        install) members='number key day item parent quantity' ;;
        uninstall) members='number key day item location' ;;
        disassemble) members='number key day item location' ;;
        reinstate) members='number key day item location' ;;
        order) members='number key day side partner' ;;
        order_line) members='number key day order part quantity' ;;
        issue_order) members='number key day order' ;;
        allocate_sale) members='number key day line item quantity' ;;
        ship) members='number key day order' ;;
        return_item) members='number key day item location' ;;
        close_order) members='number key day order' ;;
        cancel_order) members='number key day order' ;;
        build) members='number key day part quantity' ;;
        issue_build) members='number key day build' ;;
        hold_build) members='number key day build' ;;
        cancel_build) members='number key day build' ;;
        outputs) members='number key day build quantity batch serials' ;;
        complete_output) members='number key day output location' ;;
        cancel_output) members='number key day output' ;;
        scrap_output) members='number key day output' ;;
        allocate_build) members='number key day build line item quantity output' ;;
        auto_allocate) members='number key day build substitutes optional' ;;
        release) members='number key day allocation' ;;
        complete_build) members='number key day build' ;;
        consume) members='number key day allocation' ;;
    esac
    compopt -o nospace 2> /dev/null
    mapfile -t COMPREPLY < <(compgen -S = -W "$members" -- "$typed")
}

_invdesk()
{
    local said=() word typed before= command= kind= place=0 given=' ' options= rest= at last
    # bash has cut each word at an equals sign
    for ((at = 0; at <= COMP_CWORD; at++)); do
        word=${COMP_WORDS[at]}
        if ((at > 1)) && [[ $word == = || ${COMP_WORDS[at - 1]} == = ]]; then
            said[-1]+=$word
        else
            said+=("$word")
        fi
    done
    last=$((${#said[@]} - 1))
    typed=${said[last]}
    for ((at = 1; at < last; at++)); do
        word=${said[at]}
        given+="${word%%=*} "
        case $word in
            --kind=*) kind=${word#*=} ;;
            --db|--at|--token|--low|--levels|--from|--to|--kind|--document|--day|--set|--column|--port|--count)
                ((++at < last)) || before=$word
                [[ $word == --kind ]] && kind=${said[at]} ;;
            -*) ;;
            *) if [[ -z $command ]]; then command=$word; else ((++place)); fi ;;
        esac
    done
    if [[ $typed == --*=* ]]; then
        before=${typed%%=*} typed=${typed#*=}
    fi
    COMPREPLY=()
    case $before in
        --db) _invdesk_files; return ;;
        --at) :; return ;;
        --token) _invdesk_files; return ;;
        --low) :; return ;;
        --levels) _invdesk_files; return ;;
        --from) :; return ;;
        --to) :; return ;;
        --kind) _invdesk_words 'receipts counts add_category add_location add_part retire_part add_line drop_line add_substitute drop_substitute found add remove transfer split merge serialise set_status install uninstall disassemble reinstate order order_line issue_order allocate_sale ship return_item close_order cancel_order build issue_build hold_build cancel_build outputs complete_output cancel_output scrap_output allocate_build auto_allocate release complete_build consume'; return ;;
        --document) :; return ;;
        --day) :; return ;;
        --set) _invdesk_members; return ;;
        --column) _invdesk_members; return ;;
        --port) :; return ;;
        --count) :; return ;;
    esac
    case $command in
        '') options='run report export dump show migrate import lines serve stop help --help --version' ;;
        run) options='--db --at --token --names --journal --stop --check --explain --help' ;;
        report) options='--db --at --token --names --csv --help' ;;
        export) options='--db --at --token --help' ;;
        dump) options='--db --at --token --help' ;;
        show) options='--db --at --token --csv --open --low --levels --from --to --help' ;;
        migrate) options='--db --help' ;;
        import) options='--db --at --token --names --loose --unchanged --explain --kind --document --day --set --column --stop --help' ;;
        lines) options='--kind --document --day --set --column --help' ;;
        serve) options='--db --names --journal --page --port --count --token --help' ;;
        stop) options='--at --token --help' ;;
        help) options='--help' ;;
    esac
    if [[ $typed != -* ]]; then
        case $command:$place in
            report:0) _invdesk_words 'ledger stock where_used history content shortage'; return ;;
            export:0) _invdesk_words 'meta categories locations parts lines substitutes items history orders order_lines builds allocations kept spent'; return ;;
            show:0) _invdesk_words 'stock at part item orders builds find shortages trace-forward trace-back count-sheet receipt-sheet history low'; return ;;
            import:0) _invdesk_files; return ;;
            lines:0) _invdesk_files; return ;;
            help:0) _invdesk_words 'help commands add_category add_location add_part retire_part add_line drop_line add_substitute drop_substitute found add remove count transfer split merge serialise set_status install uninstall disassemble reinstate order order_line issue_order receive allocate_sale ship return_item close_order cancel_order build issue_build hold_build cancel_build outputs complete_output cancel_output scrap_output allocate_build auto_allocate complete_build consume release flags refusals KeyTaken NoSuch BadNumber NameTaken WrongFlag Retired WrongState Mismatch OpenOutputs InUse Cycle SelfInside Unfit NotLoose Serialised NotSerialised HasContent Unavailable Short Allocated OverNeed SerialCount SerialTaken TooDeep TooLarge Full faults TooLong NotJson NotObject NoField WrongType UnknownCommand UnknownField BadKey BadDay BadText BadSerials BadWord NoName Ambiguous Csv Header Changed mistakes'; return ;;
        esac
    fi
    # what was given isn't proposed again, but for what may be
    for word in $options; do
        [[ $given == *" $word "* && $word != @(--column|--set) ]] || rest+=" $word"
    done
    _invdesk_words "$rest"
}

complete -F _invdesk invdesk

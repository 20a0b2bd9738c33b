# Completes the words of pns in bash. Written by tools/help write.
_pns_words() {
    mapfile -t COMPREPLY < <(compgen -W "$1" -- "$word")
}
# Files; of a kind, those that end so and the folders come alone, if there are any.
_pns_files() {
    compopt -o filenames 2> /dev/null
    mapfile -t COMPREPLY < <(
        compgen -f -X "${1:+!*.$1}" -- "$word"
        [ -n "$1" ] && compgen -d -- "$word"
    )
    [ ${#COMPREPLY[@]} -gt 0 ] || mapfile -t COMPREPLY < <(compgen -f -- "$word")
}
# The names of the plant's units, after the last comma.
_pns_units() {
    local front= names=
    case $word in *,*) front=${word%,*}, ;; esac
    compopt -o nospace 2> /dev/null
    names=$(awk -F: '/^[ \t]*#/ { next } /^[ \t]*[a-z_]+[ \t]*:[ \t\r]*$/ { part = $1; gsub(/[ \t]/, "", part); next } part ~ /^(operating_units|material_to_operating_unit_flow_rates)$/ { gsub(/[ \t\r]/, "", $1); if ($1 != "" && !seen[$1]++) print $1 }' "${COMP_WORDS[2]}" 2> /dev/null)
    mapfile -t COMPREPLY < <(compgen -P "$front" -W "$names" -- "${word##*,}")
}
_pns() {
    local word=${COMP_WORDS[COMP_CWORD]}
    COMPREPLY=()
    if [ "$COMP_CWORD" -eq 1 ]; then
        _pns_words 'max axioms list lint flows solve show check table report json graph stable edit undo migrate expand periods make trial rank alternatives rankcheck split part merge help version'
        return
    fi
    case $word in --*) _pns_words --help; return ;; esac
    case ${COMP_WORDS[1]}:$((COMP_CWORD - 1)) in
        help:1) _pns_words 'max axioms list lint flows solve show check table report json graph stable edit undo migrate expand periods make trial rank alternatives rankcheck split part merge help version status plant FileType UnknownSection DoubleSection BadLine BadName UnknownKey DoubleKey BadNumber TooFine TooLarge Negative UnknownKind ZeroRate DoubleTerm BothSides EmptySide DoubleMaterial DoubleUnit DoubleRates TooMany LowAboveHigh UnknownMaterial NoRates NoProduct DoubleExclusion DoubleMember FewMembers UnknownUnit BadPayout UnknownName Order WrongCount MoreNodes FewerNodes AfterEnd Sign DoubleLine NoPeriod TooWide BadTerms DoubleName BadPlace InUse BadMembers' ;;
        max:1 | axioms:1 | list:1 | lint:1 | flows:1 | solve:1 | show:1 | check:1 | table:1 | \
            report:1 | json:1 | graph:1 | stable:1 | edit:1 | undo:1 | migrate:1 | expand:1 | \
            periods:1 | rank:1 | alternatives:1 | rankcheck:1 | split:1 | part:1 | merge:1) _pns_files pns ;;
        check:2 | table:2 | report:2 | json:2 | graph:2 | stable:2 | edit:2 | undo:2 | expand:2 \
            | periods:2 | rankcheck:2 | split:2 | part:5 | merge:2 | merge:3 | merge:4 | merge:5 | \
            merge:6 | merge:7 | merge:8 | merge:9 | merge:10 | merge:11 | merge:12 | merge:13 | \
            merge:14 | merge:15 | merge:16 | merge:17 | merge:18 | merge:19 | merge:20 | merge:21 | \
            merge:22 | merge:23 | merge:24 | merge:25 | merge:26 | merge:27 | merge:28 | merge:29 | \
            merge:30 | merge:31) _pns_files ;;
        axioms:2 | flows:2) _pns_units ;;
        stable:3) _pns_words 'price fix proportional' ;;
        list:2) _pns_words 'start' ;;
        solve:2 | show:2 | stable:5 | periods:3 | trial:3 | rank:3 | alternatives:3 | part:4) _pns_words '10k 100k 1M' ;;
        graph:3) _pns_words 'network' ;;
    esac
}
complete -F _pns pns

# shellcheck shell=bash
# Completion for ntpd(8) and ntpq(1) of Sarquteb, in bash. One file serves both: it is installed under the name
# of each.

# The words up to the cursor, in `words`, the last of which is the one that is written. Bash by itself divides
# 127.0.0.1:123 at the colon, and limit=5 at the sign.
_sarquteb_words() {
    local line=${COMP_LINE:0:COMP_POINT}
    read -ra words <<< "$line"
    [[ $line != *[[:space:]] ]] || words+=("")
}

# Offers those of the words in $1 that begin with the one that is written.
_sarquteb_offer() {
    mapfile -t COMPREPLY < <(compgen -W "$1" -- "${words[-1]}")
}

_sarquteb_ntpd() {
    local words
    _sarquteb_words
    COMPREPLY=()
    if [[ ${#words[@]} -eq 2 ]]; then
        _sarquteb_offer "serve once rehearse --help --version"
    elif [[ ${#words[@]} -eq 3 && ${words[1]} == serve ]]; then
        compopt -o filenames
        mapfile -t COMPREPLY < <(compgen -f -- "${words[2]}")
    fi
}

_sarquteb_ntpq() {
    local words
    _sarquteb_words
    COMPREPLY=()
    case ${#words[@]}:${words[2]-} in
        2:*) _sarquteb_offer "127.0.0.1 --help --version" ;;
        3:*) [[ ${words[1]} == --* ]] || _sarquteb_offer "rv as peers mrulist" ;;
        4:rv) _sarquteb_offer "0 1" ;;
        *:rv) _sarquteb_offer "$(_sarquteb_names "${words[3]}")" ;;
        *:mrulist)
            [[ ${words[-1]} == *=* ]] || compopt -o nospace
            _sarquteb_offer "limit= frags= mincount= resall=0x resany=0x"
            ;;
    esac
}

# The variables that our server has of an association, 0 for the server itself.
_sarquteb_names() {
    local both="leap stratum precision rootdelay rootdisp refid reftime offset"
    if [[ $1 == 0 ]]; then
        echo "$both version peer tc mintc frequency sys_jitter state epoch"
    else
        echo "$both srcadr srcport hmode pmode hpoll ppoll rec reach keyid delay dispersion jitter" \
            "filtdelay filtoffset filtdisp"
    fi
}

complete -F _sarquteb_ntpd ntpd
complete -F _sarquteb_ntpq ntpq

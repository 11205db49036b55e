# Completion of postlapse for bash.
_postlapse() {
    local word=${COMP_WORDS[COMP_CWORD]} before=${COMP_WORDS[COMP_CWORD - 1]} verb=${COMP_WORDS[1]}
    local verbs="encode decode check inspect convert help" words="" names="" folders=1
    COMPREPLY=()
    if [ "$COMP_CWORD" -eq 1 ]; then
        words="$verbs --help --version"
        folders=
    else
        case $verb:$before in
            help:*) words=${verbs% help} folders= ;;
            *:-v | *:--variant) words="H L L+" folders= ;;
            *:-c | *:--channel) words="0 1" folders= ;;
            *:-g | *:--gain) folders= ;;
            *:-o | *:--output) names="*" ;;
            convert:*) if [ "$COMP_CWORD" -eq 2 ]; then names="*.[wW][aA][vV]"; fi ;;
            encode:*) names="*.[wW][aA][vV]" ;;
            decode:* | check:* | inspect:*) names="*.[sS][qQ][vV]*" ;;
        esac
        case $verb:" ${COMP_WORDS[*]:2:COMP_CWORD-2} " in
            check:*" --strict "* | check:*" -s "* | check:*" -qs "* | check:*" -sq "*) names="*.[wW][aA][vV]" ;;
        esac
    fi
    if [[ $word == -* ]]; then
        case $verb in
            encode) words="--output --variant --gain --force --quiet --help" ;;
            decode) words="--output --channel --force --quiet --help" ;;
            check) words="--strict --quiet --help" ;;
            convert) words="--variant --gain --force --quiet --help" ;;
            inspect) words="--quiet --help" ;;
        esac
    fi
    local name
    if [ -n "$words" ]; then
        mapfile -t COMPREPLY < <(compgen -W "$words" -- "$word")
    fi
    if [ -n "$names" ]; then
        while IFS= read -r name; do COMPREPLY+=("$name"); done < <(compgen -f -X "!$names" -- "$word")
    fi
    if [ -n "$folders" ]; then
        while IFS= read -r name; do COMPREPLY+=("$name"); done < <(compgen -d -- "$word")
    fi
}
complete -o filenames -F _postlapse postlapse

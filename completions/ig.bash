# Completions of ig for bash: source this file, or put it into bash-completion's folder.
_ig() {
    local word=${COMP_WORDS[COMP_CWORD]} before=${COMP_WORDS[COMP_CWORD - 1]} command=ls options
    [ "$COMP_CWORD" -lt 2 ] || case ${COMP_WORDS[1]} in
        ignored | why | unused | lint | same | types) command=${COMP_WORDS[1]} ;;
    esac
    local rules="
        -H --hidden -. -I --no-ignore -u --unrestricted --no-ignore-vcs
        --no-ignore-parent --no-ignore-global --no-ignore-exclude
        --no-ignore-dot --no-ignore-files --no-require-git --ignore-file
        --ignore-name
    "
    local read="
        --ignore-file-case-insensitive --git-trailing-spaces
        -q --quiet --no-messages --no-ignore-messages -j --threads --no-config
    "
    local chosen="
        --max-filesize -g --glob --iglob --glob-case-insensitive -E --exclude
        -e --extension -t --type -T --type-not --type-add
    "
    local kinds="--files --dirs --links -d --max-depth"
    local printed="-0 --null --print0 --stats"
    case $command in
        ls) options="$rules $read $chosen $kinds $printed -L --follow --min-depth --one-file-system
            --sort --sort-files --type-list" ;;
        ignored) options="$rules $read $chosen $kinds $printed --no-repositories -v --verbose" ;;
        why) options="$rules $read $chosen --stdin -z --zero --only-ignored -v --verbose -n
            --non-matching --no-index" ;;
        unused) options="$rules $read $printed" ;;
        lint) options="$rules $read --json -0 --null --print0" ;;
        same) options="$read --ignored --paths -0 --null --print0" ;;
        types) options="--type-add" ;;
    esac
    options="$options -h --help -V --version"
    case $before in
        --sort) COMPREPLY=($(compgen -W "name path none" -- "$word")) ;;
        -t | -T | --type | --type-not)
            COMPREPLY=($(compgen -W "$(ig types 2>/dev/null | sed 's/:.*//')" -- "$word"))
            ;;
        --ignore-name | -d | --max-depth | --min-depth | --max-filesize | -g | --glob | --iglob | --type-add) COMPREPLY=() ;;
        -E | --exclude | -e | --extension | -j | --threads | --paths) COMPREPLY=() ;;
        *)
            case $word in
                -*) COMPREPLY=($(compgen -W "$options" -- "$word")) ;;
                *)
                    COMPREPLY=($(compgen -f -- "$word"))
                    [ "$COMP_CWORD" -ne 1 ] || COMPREPLY+=($(compgen -W "ls ignored why unused lint same types" -- "$word"))
                    ;;
            esac
            ;;
    esac
}
complete -o filenames -F _ig ig

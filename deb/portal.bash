# Completion for bash: portal, portal-setup, portal-doctor, portal-backup, portal-restore, portal-venues.

_portal() {
    local cur prev words cword
    _init_completion || return
    case $prev in
        --db | --settings)
            _filedir
            return
            ;;
        --port | --count | --now | --seed) return ;;
    esac
    if ((cword == 1)); then
        mapfile -t COMPREPLY < <(compgen -W 'serve answer print takings check --help --version' -- "$cur")
        return
    fi
    local options='--db --settings --help'
    case ${words[1]} in
        serve) options+=' --port --count' ;;
        answer) options+=' --now --seed' ;;
    esac
    mapfile -t COMPREPLY < <(compgen -W "$options" -- "$cur")
} && complete -F _portal portal

# The commands around it: options, and files.
_portal_command() {
    local cur prev words cword
    _init_completion || return
    case $prev in
        --clerk | --keep | --name | --pid | --unit | --venue) return ;;
        --check | --folder | --settings | --key | --journal | --whole)
            _filedir
            return
            ;;
    esac
    if [[ $cur == -* ]]; then
        local options=--help
        case ${words[0]##*/} in
            portal-setup) options+=' --ask --clerk --role --first-look --prices-as-shipped --renew' ;;
            portal-doctor) options+=' --all --json' ;;
            portal-backup) options+=' --pid --unit --still --check --keep --name --journal --whole' ;;
            portal-restore) options+=' --drill --whole --key --folder --settings --unit --venue' ;;
        esac
        mapfile -t COMPREPLY < <(compgen -W "$options" -- "$cur")
    else
        _filedir
    fi
} && complete -F _portal_command portal-setup portal-doctor portal-backup portal-restore

_portal_venues() {
    local cur prev words cword
    _init_completion || return
    case $cword in
        1) mapfile -t COMPREPLY < <(compgen -W 'add apply clerk retire status upgrade collect report reader plans targets' -- "$cur") ;;
        *) mapfile -t COMPREPLY < <(compgen -W "$(ls /etc/portal/venues 2>/dev/null)" -- "$cur") ;;
    esac
} && complete -F _portal_venues portal-venues

#compdef portal portal-setup portal-doctor portal-backup portal-restore portal-venues
# Completion for zsh.

_portal() {
  local files='*:file:_files'
  case $service in
    portal-setup)
      _arguments '--ask' '--clerk:name' '--role:role:(clerk manager)' '--first-look' '--prices-as-shipped' '--renew' '--help' $files ;;
    portal-venues)
      _arguments '1:command:(add apply clerk retire status upgrade collect report reader plans targets)' \
        '--house:name' '--name:host' '--counter-name:host' '--zone:zone' '--plans:file:_files' '--prices-as-shipped' \
        '--role:role:(clerk manager office)' '--weeks:number' '--csv:file:_files' '--from:day' '--to:day' '--offers:file:_files' \
        '--look' '*--venue:venue:_files -W /etc/portal/venues -/' '--office' '--none' '--port:port' '--domain:domain' '--help' \
        '*:venue:_files -W /etc/portal/venues' ;;
    portal-doctor) _arguments '--all' '--json' '--help' ;;
    portal-backup)
      _arguments '--pid:process' '--unit:unit' '--still' '--check:settings:_files' '--keep:number' '--name:name' '--journal:file:_files' \
        '--whole:folder:_files -/' '--help' $files ;;
    portal-restore)
      _arguments '--drill' '--whole' '--venue:name' '--unit:unit' '--key:file:_files' '--folder:folder:_files -/' '--settings:settings:_files' '--help' $files ;;
    portal)
      _arguments '1:command:(serve answer print takings check --help --version)' '--db:database:_files' '--settings:settings:_files' \
        '--port:port' '--count:number' '--now:seconds' '--seed:seed' '--help' '*:: :' ;;
  esac
}

_portal "$@"

# Completion for fish.
complete -c portal -f -n __fish_use_subcommand -a 'serve answer print takings check'
complete -c portal -f -n __fish_use_subcommand -l version
complete -c portal -f -l help
complete -c portal -F -r -l db -l settings
complete -c portal -f -r -n '__fish_seen_subcommand_from serve' -l port -l count
complete -c portal -f -r -n '__fish_seen_subcommand_from answer' -l now -l seed
complete -c portal-setup -l ask -l first-look -l prices-as-shipped -l renew -l help
complete -c portal-setup -f -r -l clerk
complete -c portal-setup -f -r -l role -a 'clerk manager'
complete -c portal-venues -f -n __fish_use_subcommand -a 'add apply clerk retire status upgrade collect report reader plans targets'
complete -c portal-venues -f -n 'not __fish_use_subcommand' -a '(command ls /etc/portal/venues 2>/dev/null)'
complete -c portal-venues -f -r -n '__fish_seen_subcommand_from add' -l house -l name -l counter-name -l zone
complete -c portal-venues -f -n '__fish_seen_subcommand_from add apply' -l prices-as-shipped
complete -c portal-venues -F -r -n '__fish_seen_subcommand_from add' -l plans
complete -c portal-venues -f -r -n '__fish_seen_subcommand_from clerk' -l role -a 'clerk manager office'
complete -c portal-venues -f -r -n '__fish_seen_subcommand_from report' -l weeks -l from -l to
complete -c portal-venues -F -r -n '__fish_seen_subcommand_from report' -l csv
complete -c portal-venues -F -r -n '__fish_seen_subcommand_from plans' -l offers
complete -c portal-venues -f -n '__fish_seen_subcommand_from plans' -l look
complete -c portal-venues -f -r -n '__fish_seen_subcommand_from plans reader' -l venue -a '(command ls /etc/portal/venues 2>/dev/null)'
complete -c portal-venues -f -n '__fish_seen_subcommand_from reader' -l office -l none
complete -c portal-venues -f -r -n '__fish_seen_subcommand_from targets' -l port -l domain
complete -c portal-doctor -f -l all -l json -l help
complete -c portal-backup -l still -l help
complete -c portal-backup -f -r -l pid -l unit -l keep -l name
complete -c portal-backup -F -r -l check -l journal -l whole
complete -c portal-restore -l drill -l whole -l help
complete -c portal-restore -f -r -l unit -l venue
complete -c portal-restore -F -r -l key -l folder -l settings

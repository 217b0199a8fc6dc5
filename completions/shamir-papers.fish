# Completion of shamir-papers for fish. Install it in a folder of $fish_complete_path, such as
# PREFIX/share/fish/vendor_completions.d. Only the owner knows a plan, so nothing is offered for it.

set -l tasks new check recover replace change repair what
set -l first "not __fish_seen_subcommand_from $tasks"

complete -c shamir-papers -f
complete -c shamir-papers -n $first -a new -d 'Make a backup'
complete -c shamir-papers -n $first -a check -d 'See whether papers still work'
complete -c shamir-papers -n $first -a recover -d 'Get the secret back from enough papers'
complete -c shamir-papers -n $first -a replace -d 'Write a destroyed paper again'
complete -c shamir-papers -n $first -a change -d 'Make new papers by another plan'
complete -c shamir-papers -n $first -a repair -d 'Read a damaged paper'
complete -c shamir-papers -n $first -a what -d 'See what a paper is'
complete -c shamir-papers -n $first -s V -l version -d 'Print version'
complete -c shamir-papers -s h -l help -d 'Print help'

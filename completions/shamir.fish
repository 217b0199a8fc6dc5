# Completion of shamir for fish. Install it in a folder of $fish_complete_path, such as PREFIX/share/fish/vendor_completions.d.
# Only the owner knows a plan, names, a secret, a passphrase, a fingerprint or a quorum, so neither words nor files are offered for them.
# Options whose value is a file are completed with files.

set -l commands create show drill recover status reissue repair resplit
set -l first "not __fish_seen_subcommand_from $commands"

complete -c shamir -f
complete -c shamir -n $first -a create -d 'Create a backup of a secret'
complete -c shamir -n $first -a show -d 'Show the fields of each mnemonic'
complete -c shamir -n $first -a drill -d 'Try the quorums of the mnemonics'
complete -c shamir -n $first -a recover -d 'Recover the secret from mnemonics'
complete -c shamir -n $first -a status -d 'Show which members of each group there are, and whether enough groups are complete'
complete -c shamir -n $first -a reissue -d 'Recompute lost mnemonics'
complete -c shamir -n $first -a repair -d 'Find words of a mnemonic that cannot be read'
complete -c shamir -n $first -a resplit -d 'Create another backup of the same secret'
complete -c shamir -n $first -s V -l version -d 'Print version'
complete -c shamir -s h -l help -d 'Print help'
complete -c shamir -n '__fish_seen_subcommand_from create' -l master-secret -x -d 'Back up this secret (other users can see it)'
complete -c shamir -n '__fish_seen_subcommand_from create' -l master-secret-file -r -F -d 'Read the secret, in hexadecimal, from a file'
complete -c shamir -n '__fish_seen_subcommand_from create drill recover' -l passphrase -x -d 'Use this passphrase (other users can see it)'
complete -c shamir -n '__fish_seen_subcommand_from create drill recover' -l passphrase-file -r -F -d 'Read the passphrase from a file'
complete -c shamir -n '__fish_seen_subcommand_from create' -l exponent -x -a '(seq 0 15)' -d 'Set the iteration exponent'
complete -c shamir -n '__fish_seen_subcommand_from create' -l extendable -d 'Set the extendable flag'
complete -c shamir -n '__fish_seen_subcommand_from drill' -l after -x -d 'Start after this quorum'
complete -c shamir -n '__fish_seen_subcommand_from drill' -l limit -x -d 'Try at most this many quorums'
complete -c shamir -n '__fish_seen_subcommand_from drill recover' -l fingerprint -d 'Print the fingerprint instead of the secret'
complete -c shamir -n '__fish_seen_subcommand_from drill recover' -l expect -x -d 'Compare with this fingerprint (other users can see it)'
complete -c shamir -n '__fish_seen_subcommand_from resplit' -l random-file -r -F -d 'Read the random bytes from a file'

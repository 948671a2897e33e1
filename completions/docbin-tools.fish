# fish completion for docbin-tools: the commands, then their options and the names of files.
complete -c docbin-tools -n __fish_is_first_arg -f -a script -d 'make a script of edits from plain lines, or make the lines on a document'
complete -c docbin-tools -n __fish_is_first_arg -f -a positions -d 'print where the parts of a document are'
complete -c docbin-tools -n __fish_is_first_arg -f -a many -d 'run a command of docbin on many files'
complete -c docbin-tools -n __fish_is_first_arg -f -a explain -d 'say what a refusal means and what to do, and which key of a script is wrong'
complete -c docbin-tools -n __fish_is_first_arg -f -a meta -d 'print title, author and other properties of a document, or set them'
complete -c docbin-tools -n __fish_is_first_arg -f -a paragraph-runs -d 'compare the runs of paragraphs in a file with its paragraphs'
complete -c docbin-tools -n '__fish_seen_subcommand_from script' -l check
complete -c docbin-tools -n '__fish_seen_subcommand_from script' -l edit
complete -c docbin-tools -n '__fish_seen_subcommand_from script' -l help
complete -c docbin-tools -n '__fish_seen_subcommand_from script' -l names
complete -c docbin-tools -n '__fish_seen_subcommand_from script' -l new
complete -c docbin-tools -n '__fish_seen_subcommand_from positions' -l help
complete -c docbin-tools -n '__fish_seen_subcommand_from many' -l all
complete -c docbin-tools -n '__fish_seen_subcommand_from many' -l help
complete -c docbin-tools -n '__fish_seen_subcommand_from many' -l into
complete -c docbin-tools -n '__fish_seen_subcommand_from many' -l jobs
complete -c docbin-tools -n '__fish_seen_subcommand_from many' -l json
complete -c docbin-tools -n '__fish_seen_subcommand_from many' -l tsv
complete -c docbin-tools -n '__fish_seen_subcommand_from explain' -l help
complete -c docbin-tools -n '__fish_seen_subcommand_from meta' -l help
complete -c docbin-tools -n '__fish_seen_subcommand_from meta' -l json
complete -c docbin-tools -n '__fish_seen_subcommand_from paragraph-runs' -l gen
complete -c docbin-tools -n '__fish_seen_subcommand_from paragraph-runs' -l help
complete -c docbin-tools -n '__fish_seen_subcommand_from paragraph-runs' -l program
complete -c docbin-tools -n '__fish_seen_subcommand_from paragraph-runs' -l self-test

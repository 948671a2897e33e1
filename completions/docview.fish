# fish completion for docview: its options, then the names of files.
complete -c docview -l hidden -d 'hidden text too'
complete -c docview -l headers -d 'headers and footers too'
complete -c docview -l strict -d 'only files that docbin accepts'
complete -c docview -n '__fish_seen_subcommand_from text markdown html' -l pictures -x -a '(__fish_complete_directories)' -d 'the files of pictures, into a folder'
complete -c docview -n '__fish_seen_subcommand_from text markdown html' -l force -d 'over files that are there'
complete -c docview -n '__fish_seen_subcommand_from meta' -l json -d 'properties as JSON'
complete -c docview -l help -d 'how the program is called'
complete -c docview -l version -d 'the version'
complete -c docview -F
complete -c docview -n __fish_is_first_arg -a 'text markdown html' -d 'the form of the page'
complete -c docview -n __fish_is_first_arg -a meta -d 'the properties of a file'

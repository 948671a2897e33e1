# fish completion for docfit: its options, then the names of files.
complete -c docfit -l plain -d 'leave endnotes and comments out'
complete -c docfit -l help -d 'how the program is called'
complete -c docfit -l version -d 'the version'
complete -c docfit -F

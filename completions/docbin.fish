# fish completion for docbin: the commands, then the names of files.
complete -c docbin -f
complete -c docbin -n '__fish_is_first_arg' -a text -d 'the main text'
complete -c docbin -n '__fish_is_first_arg' -a streams -d 'a line for each stream of the container'
complete -c docbin -n '__fish_is_first_arg' -a check -d 'whether the file is accepted, and how much it has'
complete -c docbin -n '__fish_is_first_arg' -a show -d 'the styles, texts and bookmarks, line by line'
complete -c docbin -n '__fish_is_first_arg' -a props -d 'what is in effect at an item of the main text'
complete -c docbin -n '__fish_is_first_arg' -a full -d 'put the full save of the document under a name'
complete -c docbin -n '__fish_is_first_arg' -a equal -d 'whether the documents of two files are equal'
complete -c docbin -n '__fish_is_first_arg' -a edit -d 'edit the document by a script, and put its last save under a name'
complete -c docbin -n '__fish_is_first_arg' -a gen -d 'make a large document of a number, and put its last save under a name'
complete -c docbin -n '__fish_is_first_arg' -a outline -d 'the paragraphs that have a number or a level in the outline'
complete -c docbin -n '__fish_is_first_arg' -a title -d 'title, subject and author of the summary'
complete -c docbin -n '__fish_is_first_arg' -a retitle -d 'put the full save of the document with another title under a name'
complete -c docbin -n '__fish_is_first_arg' -a export -d 'put the document as JSON under a name'
complete -c docbin -n '__fish_is_first_arg' -a import -d 'put the full save of the document of a JSON file under a name'
complete -c docbin -n '__fish_is_first_arg' -a join -d 'put the full save of one document behind another under a name'
complete -c docbin -n '__fish_seen_subcommand_from text streams check show props full equal edit outline title retitle export import join; and test (count (commandline -opc)) -eq 2' -F
complete -c docbin -n '__fish_seen_subcommand_from full equal edit gen export import join; and test (count (commandline -opc)) -eq 3' -F
complete -c docbin -n '__fish_seen_subcommand_from edit retitle join; and test (count (commandline -opc)) -eq 4' -F

# Completes lasso_codes in fish: a verb, then its options.
complete -c lasso_codes -f

complete -c lasso_codes -n __fish_use_subcommand -a counts -d 'each distinct line after how often it came, most frequent first'
complete -c lasso_codes -n __fish_use_subcommand -a decode -d 'the lines of columns'
complete -c lasso_codes -n __fish_use_subcommand -a dictionary -d 'the distinct lines of columns, as a column without entries'
complete -c lasso_codes -n __fish_use_subcommand -a distinct -d 'each distinct line once, where it first came'
complete -c lasso_codes -n __fish_use_subcommand -a encode -d 'a column: each distinct line once, and for each line its code'
complete -c lasso_codes -n __fish_use_subcommand -a join -d 'a column of a dictionary and of entries by its codes'
complete -c lasso_codes -n __fish_use_subcommand -a merge -d 'columns as one column'
complete -c lasso_codes -n __fish_use_subcommand -a recode -d 'the entries of columns by the codes of a dictionary'
complete -c lasso_codes -n __fish_use_subcommand -l version -d 'print the version'
complete -c lasso_codes -l help -d 'print a help text'

complete -c lasso_codes -n '__fish_seen_subcommand_from counts decode dictionary distinct encode join merge recode' -l limit -x \
    -d 'the most bytes that the distinct lines may take'
complete -c lasso_codes -n '__fish_seen_subcommand_from counts decode dictionary distinct encode join merge recode' -l quiet -d 'show no progress on a terminal'
complete -c lasso_codes -n '__fish_seen_subcommand_from counts' -l top -x -d 'write at most this many lines'
complete -c lasso_codes -n '__fish_seen_subcommand_from decode encode' -l null -x -d 'the word of a null'
complete -c lasso_codes -n '__fish_seen_subcommand_from dictionary encode join merge recode' -l binary -d 'write codes as four bytes each, the least first'
complete -c lasso_codes -n '__fish_seen_subcommand_from counts encode' -l workers -x -d 'share the work among 1 to 64 threads'
complete -c lasso_codes -n '__fish_seen_subcommand_from counts decode dictionary distinct encode join merge recode' -l utf8 -d 'refuse what is not UTF-8'

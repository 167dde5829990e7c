# Completes lasso_lines in fish: the options that may still be given.
complete -c lasso_lines -f
complete -c lasso_lines -n 'not __fish_seen_argument -l limit -l help -l version' -l limit -x -d 'the most bytes that the buckets of texts may take'
complete -c lasso_lines -n 'not __fish_seen_argument -l workers -l help -l version' -l workers -x -d 'write the distinct lines, by 1 to 64 threads'
complete -c lasso_lines -n 'not __fish_seen_argument -l limit -l workers -l help -l version' -l help -d 'print a help text'
complete -c lasso_lines -n 'not __fish_seen_argument -l limit -l workers -l help -l version' -l version -d 'print the version'

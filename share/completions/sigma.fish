# Completion of sigma for fish: its commands, and the options of a command that aren't given yet.
function __sigma_option -d 'Whether one of the commands is there and the option is not'
    __fish_seen_subcommand_from $argv[2..]; and not __fish_seen_argument -l $argv[1]
end

complete -c sigma -f
set -l words
set -l texts
# share/make writes from share/commands: commands of fish
set -l lines \
    'check|Says whether a text is a model, or where it isn'\''t and why' \
    'print|Writes a model in its one fixed layout' \
    'describe|Writes a model in English' \
    'uses|Lists which events read and write each variable' \
    'conflicts|Lists which simultaneous events need priorities' \
    'run|Simulates a model' \
    'replicate|Runs it many times, and writes a table' \
    'save|Runs it for so many events, and keeps the run' \
    'resume|Continues a saved run' \
    'reduce|Takes out of a model what it doesn'\''t need' \
    'certify|Checks a reduction that another program or a person made' \
    'compare|Says whether two models mean the same, or where they differ' \
    'fuse|Merges duplicated vertices' \
    'narrow|Declares ranges that no run leaves' \
    'trial|Draws a model from a number, reduces it and runs both'
# By hand.
for line in $lines
    set -a words (string split '|' $line)[1]
    set -a texts (string split '|' $line)[2]
end
for i in (seq (count $words))
    complete -c sigma -n "not __fish_seen_subcommand_from $words" -a $words[$i] -d $texts[$i]
end
# share/make writes from share/commands: options of fish
complete -c sigma -n '__sigma_option until run replicate save resume compare trial' -l until -x -d 'The stop time, in ticks'
complete -c sigma -n '__sigma_option seed run replicate save compare trial' -l seed -x -d 'The seed of the random streams'
complete -c sigma -n '__sigma_option vertices trial' -l vertices -x -d 'How many vertices the model has'
complete -c sigma -n '__sigma_option events run replicate save resume compare trial' -l events -x -d 'The most events that are made'
complete -c sigma -n '__sigma_option runs replicate compare' -l runs -x -d 'How many runs are made'
complete -c sigma -n '__sigma_option stride replicate' -l stride -x -d 'From one run'\''s seed to the next, else 1'
complete -c sigma -n '__sigma_option start run replicate save compare' -l start -x -d 'As --start=-3,4'
complete -c sigma -n '__sigma_option room run resume' -l room -x -d 'Pending events with room, else 4096'
# By hand.

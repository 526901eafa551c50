# Completion of dmlab's words for fish, found by its name in a folder of completions.
set -l commands check sim threads audit trace trace-history disks disks-history sweep
complete -c dmlab -n "not __fish_seen_subcommand_from $commands" -f
complete -c dmlab -n "__fish_seen_subcommand_from $commands" -F
complete -c dmlab -n "not __fish_seen_subcommand_from $commands" -a check -d "Write a bundle's budget, or what is refused in it"
complete -c dmlab -n "not __fish_seen_subcommand_from $commands" -a sim -d "Run a bundle by a seed"
complete -c dmlab -n "not __fish_seen_subcommand_from $commands" -a threads -d "Run a bundle by threads"
complete -c dmlab -n "not __fish_seen_subcommand_from $commands" -a audit -d "Run a bundle's history"
complete -c dmlab -n "not __fish_seen_subcommand_from $commands" -a trace -d "Run a bundle by a seed, and write what each event did"
complete -c dmlab -n "not __fish_seen_subcommand_from $commands" -a trace-history -d "Run a bundle's history, and write what each event did"
complete -c dmlab -n "not __fish_seen_subcommand_from $commands" -a disks -d "Run a bundle by a seed, and write what stands on its disks then"
complete -c dmlab -n "not __fish_seen_subcommand_from $commands" -a disks-history -d "Run a bundle's history, and write what stands on its disks then"
complete -c dmlab -n "not __fish_seen_subcommand_from $commands" -a sweep -d "Run a bundle by many seeds, and write which reports differ"
complete -c dmlab -n "__fish_seen_subcommand_from check" -l all -d "Write the first fault of each other part too"
complete -c dmlab -n "__fish_seen_subcommand_from sim trace disks" -l seed -x -d "The seed, 0 if it is left out"
complete -c dmlab -n "__fish_seen_subcommand_from sweep" -l first -x -d "The first seed, 0 if it is left out"
complete -c dmlab -n "__fish_seen_subcommand_from sweep" -l last -x -d "The last seed"
complete -c dmlab -n "__fish_seen_subcommand_from sim trace disks sweep" -l prompt -d "Let the clock go on only where nothing else may come"
complete -c dmlab -n "__fish_seen_subcommand_from sim sweep" -l eio -d "Find each failed operation"
complete -c dmlab -n "__fish_seen_subcommand_from sim sweep" -l lost -d "Find each write answered ok that a line dropped"
complete -c dmlab -n "__fish_seen_subcommand_from sim sweep" -l corrupt -d "Find each write and read whose bytes were changed"
complete -c dmlab -n "__fish_seen_subcommand_from sim sweep" -l stale -d "Find each read answered older data"
complete -c dmlab -n "__fish_seen_subcommand_from sim sweep" -l misplaced -d "Find each read answered what was written elsewhere"
complete -c dmlab -n "__fish_seen_subcommand_from sim sweep" -l broken-sync -d "Find each sync answered ok after a lost write"
complete -c dmlab -n "__fish_seen_subcommand_from sim sweep" -l fail -d "End with status 4 where something is found"
complete -c dmlab -n "__fish_seen_subcommand_from sweep" -l by-line -d "Count the findings by the lines of the logs"
complete -c dmlab -n "__fish_seen_subcommand_from sweep" -l disks -d "Tell the runs apart by what stands on their disks"
complete -c dmlab -n "__fish_seen_subcommand_from sim threads" -l history -d "Write the events too"
complete -c dmlab -s h -l help -d "Print help"
complete -c dmlab -n "not __fish_seen_subcommand_from $commands" -s V -l version -d "Print the version"
# the tools: their options, as their helps have them, and files
for tool in aftermath bundle compare iolog3to2 outages shrink sweep timeline
    complete -c dmlab-$tool -n "string match -q -- '-*' (commandline -ct)" \
        -a "(dmlab-$tool --help 2> /dev/null | string match -r -a -- '(?<=^|[ \\[(])-{1,2}[a-z][a-z-]*' | sort -u) --help"
end

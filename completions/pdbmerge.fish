# Completion of pdbmerge for fish.

# Prints the files that end in .pdb, and the folders.
function __pdbmerge_files
    complete -C "'' "(commandline -ct) | string match -r '^[^\t]*(?:/|\.pdb)(?=\t|$)'
end

# Prints the folders.
function __pdbmerge_folders
    complete -C "'' "(commandline -ct) | string match -r '^[^\t]*/(?=\t|$)'
end

# Whether the command of the line is one of the given ones.
function __pdbmerge_command_is
    set -l words (commandline -opc)
    contains -- "$words[2]" $argv
end

# Whether no command was given yet.
function __pdbmerge_has_no_command
    test (count (commandline -opc)) = 1
end

# Whether the command of the line is one of the given ones, and fewer files than MANY follow it. The
# value behind an option is none.
function __pdbmerge_has_fewer # MANY COMMANDS
    set -l words (commandline -opc)
    contains -- "$words[2]" $argv[2..]
    or return 1
    set -l before ''
    set -l given 0
    for word in $words[3..]
        string match -q -- '-*' $word
        or contains -- "$before" --guid --age --limit --block-size --max-bytes --files-from --map
        or set given (math $given + 1)
        set before $word
    end
    test $given -lt $argv[1]
end

complete -c pdbmerge -f
complete -c pdbmerge -n __pdbmerge_has_no_command -a merge -d 'Merges the types of files into one'
complete -c pdbmerge -n __pdbmerge_has_no_command -a diff -d 'Shows the types that only one of two files has'
complete -c pdbmerge -n __pdbmerge_has_no_command -a members -d 'Shows the members of each type'
complete -c pdbmerge -n __pdbmerge_has_no_command -a records -d 'Shows each type record'
complete -c pdbmerge -n __pdbmerge_has_no_command -a record -d 'Shows one type record'
complete -c pdbmerge -n __pdbmerge_has_no_command -a types -d 'Shows each type record, with the types that it names'
complete -c pdbmerge -n __pdbmerge_has_no_command -a check -d 'Shows whether the types of a file can be trusted'
complete -c pdbmerge -n __pdbmerge_has_no_command -a streams -d 'Shows the container'
complete -c pdbmerge -n __pdbmerge_has_no_command -a info -d 'Shows what identifies the file'
complete -c pdbmerge -n __pdbmerge_has_no_command -a explain -d 'Shows what a fault means, and what to do'
complete -c pdbmerge -n __pdbmerge_has_no_command -a help -d 'Prints the help of a command'

complete -c pdbmerge -n __pdbmerge_has_no_command -s V -l version -d 'Prints the version'
complete -c pdbmerge -n 'not __pdbmerge_command_is help' -s h -l help -d 'Prints help'
complete -c pdbmerge -n '__pdbmerge_command_is merge' -x -l guid -a types -d 'The GUID of the file that is written'
complete -c pdbmerge -n '__pdbmerge_command_is merge' -x -l age -d 'Its age'
complete -c pdbmerge -n '__pdbmerge_command_is merge' -x -l limit -d 'How many bytes the types may have together'
complete -c pdbmerge -n '__pdbmerge_command_is merge diff members records record types check streams info' -x -l max-bytes -d 'The greatest number of bytes of a file or a stream'
complete -c pdbmerge -n '__pdbmerge_command_is merge' -x -l block-size -a '512 1024 2048 4096 8192 16384 32768' -d 'How many bytes a block of the file has'
complete -c pdbmerge -n '__pdbmerge_command_is merge' -r -F -l files-from -d 'A file with the paths of more inputs'
complete -c pdbmerge -n '__pdbmerge_command_is merge' -s 0 -l null -d 'The paths of the list end with a NUL'
complete -c pdbmerge -n '__pdbmerge_command_is merge' -r -F -l map -d 'A file that tells where each type went'
complete -c pdbmerge -n '__pdbmerge_command_is merge' -l progress -d 'Tells how many of the inputs were read'
complete -c pdbmerge -n '__pdbmerge_command_is merge' -l skip-refused -d 'Leaves out inputs that are refused'
complete -c pdbmerge -n '__pdbmerge_command_is merge diff members records record types check streams info explain help' -s v -l verbose -d 'Says more after a refusal'
# Of each of these pairs one is enough.
complete -c pdbmerge -n '__pdbmerge_command_is merge; and not __fish_contains_opt no-clobber replace' -l no-clobber -d 'Refuses a file to write that is there'
complete -c pdbmerge -n '__pdbmerge_command_is merge; and not __fish_contains_opt no-clobber replace' -l replace -d 'Keeps the old file until the new one is whole'
complete -c pdbmerge -n '__pdbmerge_command_is diff; and not __fish_contains_opt origins members' -l origins -d 'Only the types where the difference begins'
complete -c pdbmerge -n '__pdbmerge_command_is diff; and not __fish_contains_opt origins members' -l members -d 'Which definitions came, went or changed, and in which members'

# The first path of merge is the file that it writes: no file that is there is offered, since it would be written over.
complete -c pdbmerge -n '__pdbmerge_has_fewer 1 merge' -a '(__pdbmerge_folders)'
complete -c pdbmerge -n '__pdbmerge_command_is merge; and not __pdbmerge_has_fewer 1 merge' -a '(__pdbmerge_files)'
complete -c pdbmerge -n '__pdbmerge_has_fewer 2 diff' -a '(__pdbmerge_files)'
complete -c pdbmerge -n '__pdbmerge_has_fewer 1 members records record types check streams info' -a '(__pdbmerge_files)'
complete -c pdbmerge -n '__pdbmerge_has_fewer 1 explain' -a '(seq 41)'
complete -c pdbmerge -n '__pdbmerge_has_fewer 1 help' -a 'merge diff members records record types check streams info explain help'

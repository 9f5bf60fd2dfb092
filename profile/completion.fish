# Completion of profile in fish. Subcommands, options and what is said of them are those of its help, numbers those that explain lists; file names are fish's own.

# The subcommands, each with what it does.
function __profile_subcommands
    profile --help 2>/dev/null | string replace -rf '^  profile ([a-z]+) .*  ([a-z].*)$' '$1\t$2'
end

# The options of the subcommand of the line, each with what it does.
function __profile_options
    set -l line (commandline -opc)
    for option in (profile help $line[2] 2>/dev/null | string match -r '^  -.*')
        string replace -rf '^  (-[a-z]), --.*  (.+)$' '$1\t$2' -- $option
        string replace -rf '^  (?:-[a-z], )?(--[a-z-]+) .*  (.+)$' '$1\t$2' -- $option
    end
end

# The numbers of errors, each with its word.
function __profile_numbers
    profile explain 2>/dev/null | string replace -r '^ *([0-9]+)  ' '$1\t'
end

# Whether help stands for the subcommand, and nothing behind it yet.
function __profile_wants_help
    set -l line (commandline -opc)
    test (count $line) = 2; and test $line[2] = help
end

# Whether explain stands for the subcommand, and nothing behind it yet.
function __profile_wants_number
    set -l line (commandline -opc)
    test (count $line) = 2; and test $line[2] = explain
end

# Whether an option of a subcommand is begun.
function __profile_wants_option
    not __fish_use_subcommand; and string match -q -- '-*' (commandline -ct)
end

complete -c profile -n __fish_use_subcommand -f -a '(__profile_subcommands)'
complete -c profile -n __fish_use_subcommand -s h -l help -d help
complete -c profile -n __fish_use_subcommand -s V -l version -d version
complete -c profile -n __profile_wants_help -f -a '(__profile_subcommands)'
complete -c profile -n __profile_wants_number -f -a '(__profile_numbers)'
complete -c profile -n __profile_wants_option -a '(__profile_options)'

#compdef profile
# Completion of profile in zsh. Subcommands, options and what is said of them are those of its help, numbers those that explain lists.

local -a offered
local program=${~words[1]} word=$words[CURRENT] before=$words[CURRENT-1]
if (( CURRENT == 2 )); then
    offered=(-h:help --help:help -V:version --version:version)
    _describe -o option offered
elif [[ $word == -* && $before != (-o|--output|--session|--words|--script|--frames) && ${words[2,CURRENT-1][(I)--]} == 0 ]]; then
    offered=("${(@f)$($program help $words[2] 2>/dev/null | sed -n 's/^  \(\(-[a-z]\), \)\{0,1\}\(--[a-z-]*\) .*  \(..*\)$/\2:\4\
\3:\4/p' | sed '/^:/d')}")
    _describe -o option offered
fi
if (( CURRENT == 2 )) || [[ CURRENT -eq 3 && $words[2] == help ]]; then
    offered=("${(@f)$($program --help 2>/dev/null | sed -n 's/^  profile \([a-z]*\) .*  \([a-z].*\)$/\1:\2/p')}")
    _describe subcommand offered
elif [[ CURRENT -eq 3 && $words[2] == explain && $word != -* ]]; then
    offered=("${(@f)$($program explain 2>/dev/null | sed 's/^ *\([0-9]*\)  /\1:/')}")
    _describe number offered
elif [[ $before == --words ]]; then
    _message 'words with commas between them'
elif [[ $before == --frames ]]; then
    _message 'bytes of a frame, 16 to 1024'
elif [[ $word != -* ]]; then
    _files
fi

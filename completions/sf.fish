# Completions of sf for fish.

# Whether the word before is one of these options, after which a value stands.
function __sf_is_after
    set -l words (commandline -opc)
    contains -- "$words[-1]" $argv
end

# Whether the line has a command yet, and whether it is one of these. After an option that takes a value no option stands.
function __sf_has_no_command
    test (count (commandline -opc)) -eq 1
end

function __sf_has_command
    set -l words (commandline -opc)
    contains -- "$words[2]" $argv
    and not __sf_is_after --limit -p --profile -o --output --print --names -e -s --skip --ignore --width
end

function __sf_is_after_help
    set -l words (commandline -opc)
    test (count $words) -eq 2 -a "$words[2]" = help
end

complete -c sf -f
complete -c sf -n __sf_has_no_command -s h -l help -d 'Show help'
complete -c sf -n __sf_has_no_command -s V -l version -d 'Show the version'
complete -c sf -n __sf_has_no_command -a show -d 'Show the directives of a scan format'
complete -c sf -n __sf_has_no_command -a scan -d 'Scan standard input or files by a format'
complete -c sf -n __sf_has_no_command -a print -d 'Print values by a format'
complete -c sf -n __sf_has_no_command -a check -d 'Say whether what is written is read back'
complete -c sf -n __sf_has_no_command -a copy -d 'Scan by a format and print by another'
complete -c sf -n __sf_has_no_command -a help -d 'Show help'
complete -c sf -n __sf_is_after_help -a 'show scan print check copy formats help'
complete -c sf -n '__sf_has_command show scan print check copy' -s h -l help -d 'Show help'
complete -c sf -n '__sf_has_command scan copy' -l limit -x -d 'The most bytes of one record'
complete -c sf -n '__sf_has_command scan copy' -l line-buffered -d 'Write what each record gives at once'
complete -c sf -n '__sf_has_command show scan print check copy' -s p -l profile -x -a '1 2 3' -d 'The formats that are read'
complete -c sf -n '__sf_has_command scan' -s S -l strict -d 'Take no space, plus or prefix before a value; with -l, as with -w'
complete -c sf -n '__sf_has_command scan' -s o -l output -x -a 'plain tsv json csv' -d 'How values are written'
complete -c sf -n '__sf_has_command scan' -l print -x -d 'Write each record by this print format, without a newline of its own'
complete -c sf -n '__sf_has_command scan' -l names -x -d 'The names of the columns, as a,b: a header or keys'
complete -c sf -n '__sf_has_command scan copy' -s l -l lines -d 'Take each line as an input of its own'
complete -c sf -n '__sf_has_command scan' -s e -x -d 'A format of a line'
complete -c sf -n '__sf_has_command scan' -l tag -d 'Write the number of the -e that counted, as the first column'
complete -c sf -n '__sf_has_command scan copy' -s s -l skip -x -d 'Pass over the first lines, as a header'
complete -c sf -n '__sf_has_command scan copy' -s w -l whole -d 'Fail lines of which the format leaves something'
complete -c sf -n '__sf_has_command scan copy' -s k -l keep-going -d 'Go on after a line that fails'
complete -c sf -n '__sf_has_command scan copy' -s q -l quiet -d "Don't report lines that fail"
complete -c sf -n '__sf_has_command scan' -l matching -d 'Pass over lines that no format reads'
complete -c sf -n '__sf_has_command scan' -l ignore -x -d 'Pass over lines that this format reads to their end'
complete -c sf -n '__sf_has_command print' -l raw -d 'Take the values without escapes'
complete -c sf -n '__sf_has_command check' -l width -x -d 'The width of texts'
complete -c sf -n '__sf_has_command show scan print check copy' -l explain -d 'Say more of what is at fault'
complete -c sf -n '__sf_has_command show scan print check copy' -l no-explain -d 'Say no more than the first line'
complete -c sf -n '__sf_is_after -p --profile' -a '1 2 3'
complete -c sf -n '__sf_is_after -o --output' -a 'plain tsv json csv'

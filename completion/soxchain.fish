# Completion of soxchain, soxchain-plan and soxchain-job for fish.

# How many of IN and OUT stand before the word that is completed.
function __soxchain_files
    set -l files 0
    set -l skip 0
    for word in (commandline -opc)[2..-1]
        if test $skip = 1
            set skip 0
        else if contains -- $word -t -b --every --record --progress; and test $files -lt 2
            set skip 1
        else if test $word = -; or not string match -q -- '-*' $word
            set files (math $files + 1)
        end
    end
    echo $files
end

# The names of the effects, as the program lists them.
function __soxchain_effects
    soxchain --help 2>/dev/null | sed -n '/^effects:/,/^$/s/^  \([a-z]*\) .*/\1/p' | sort -u
end

function __soxchain_before
    set -l words (commandline -opc)
    contains -- $words[-1] $argv
end

for program in soxchain soxchain-plan soxchain-job
    complete -c $program -n 'test (__soxchain_files) -ge 2; and not __soxchain_before fir' -f
    complete -c $program -n 'test (__soxchain_files) -ge 2; and not __soxchain_before fade fir' -a '(__soxchain_effects)'
    complete -c $program -n 'test (__soxchain_files) -ge 2; and __soxchain_before fade' -a t
    complete -c $program -n 'test (__soxchain_files) -lt 2' -o t -x -a 'wav au' -d 'the container of the file behind it'
    complete -c $program -n 'test (__soxchain_files) -eq 1' -o b -x -a '8 16 24 32' -d 'the bits of a sample'
    complete -c $program -n 'test (__soxchain_files) -lt 2' -o D -d 'changes nothing'
    complete -c $program -n 'test (count (commandline -opc)) -eq 1' -l help -d 'prints the usage'
    complete -c $program -n 'test (count (commandline -opc)) -eq 1' -l version -d 'prints the version'
end
complete -c soxchain-plan -n 'test (count (commandline -opc)) -eq 1' -l json -d 'prints one JSON object'
complete -c soxchain-job -n 'test (__soxchain_files) -eq 0' -l every -x -d 'seconds between two checkpoints'
complete -c soxchain-job -n 'test (__soxchain_files) -eq 0' -l record -r -d 'the record of the finished job'
complete -c soxchain-job -n 'test (__soxchain_files) -eq 0' -l progress -x -a 'auto always never' -d 'shows a line of progress'
complete -c soxchain-job -n 'test (__soxchain_files) -eq 0' -l status -d 'shows the checkpoint'
complete -c soxchain-job -n 'test (__soxchain_files) -eq 0' -l sha256 -d 'the record has the SHA-256 of both files too'
complete -c soxchain-job -n 'test (__soxchain_files) -eq 0' -l abandon -d 'removes the part and the checkpoint'
set -e program
